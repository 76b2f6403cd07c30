/* Instructions of 32 bits. */
#include "chip.h"
#include "decode.h"

static uint32_t rotated(uint32_t value, uint32_t by) {
    return by == 0 ? value : value >> by | value << (32 - by);
}

/* The immediate of 12 bits that stands for one of 32 (ThumbExpandImm_C). */
static void expand(struct op *op, uint32_t imm12) {
    static const uint32_t times[4] = {1, 0x00010001, 0x01000100, 0x01010101};
    if (imm12 >> 10 == 0) {
        op->imm = (imm12 & 0xff) * times[imm12 >> 8 & 3];
        return;
    }
    op->imm = rotated(0x80 | (imm12 & 0x7f), imm12 >> 7);
    op->carry = (uint8_t)(op->imm >> 31);
}

/* Load and store of several registers. */
static struct op decode_several(uint32_t one, uint32_t two) {
    uint32_t way = one >> 7 & 3;
    bool is_load = (one & 0x10) != 0;
    struct op op = decode_immediate(is_load ? LDM : STM, FLAGS_NO, 0, one & 15, two);
    op.kind = way == 1 || way == 2 ? op.kind : NONE;
    op.how = (uint8_t)((way == 1 ? UP : PRE) | ((one & 0x20) != 0 ? WRITE_BACK : 0));
    return op;
}

/* Load and store of two registers, and table branches. */
static struct op decode_two(uint32_t one, uint32_t two) {
    struct op op = decode_register(NONE, FLAGS_NO, two >> 12, one & 15, two & 15);
    if ((one & 0x1f0) == 0xd0 && (two & 0xffe0) == 0xf000) {
        op.kind = TABLE;
        op.width = (two & 0x10) != 0 ? 2 : 1;
        return op;
    }
    op.how = (uint8_t)((one >> 8 & 1) * PRE | (one >> 7 & 1) * UP | (one >> 5 & 1) * WRITE_BACK);
    op.a = two >> 8 & 15;
    op.imm = (two & 0xff) << 2;
    op.kind = (op.how & (PRE | WRITE_BACK)) == 0 ? NONE : (one & 0x10) != 0 ? LDRD : STRD;
    return op;
}

/* The kind of data processing of a code of 4 bits. */
static enum kind processing(uint32_t code, uint32_t n, bool compares) {
    static const uint8_t kinds[16] = {AND, BIC, ORR, ORN, EOR, NONE, NONE, NONE,
                                      ADD, NONE, ADC, SBC, NONE, SUB, RSB, NONE};
    enum kind kind = kinds[code];
    if (n == 15 && (kind == ORR || kind == ORN)) {
        return kind == ORR ? MOV : MVN;
    }
    if (compares) {
        return kind == AND ? TST : kind == EOR ? TEQ : kind == ADD ? CMN : kind == SUB ? CMP : kind;
    }
    return kind;
}

static struct op decode_processing(uint32_t one, uint32_t two, bool is_register) {
    uint32_t n = one & 15;
    uint32_t d = two >> 8 & 15;
    bool sets = (one & 0x10) != 0;
    enum kind kind = processing(one >> 5 & 15, n, sets && d == 15);
    if (!is_register) {
        struct op op = decode_immediate(kind, sets ? FLAGS_YES : FLAGS_NO, d, n, 0);
        expand(&op, (one >> 10 & 1) << 11 | (two >> 12 & 7) << 8 | (two & 0xff));
        return op;
    }
    struct op op = decode_register(kind, sets ? FLAGS_YES : FLAGS_NO, d, n, two & 15);
    decode_shift(&op, two >> 4 & 3, (two >> 12 & 7) << 2 | (two >> 6 & 3));
    return op;
}

/* Additions and moves of 12 and 16 bits. */
static struct op decode_long_immediate(uint32_t one, uint32_t two) {
    uint32_t n = one & 15;
    uint32_t imm12 = (one >> 10 & 1) << 11 | (two >> 12 & 7) << 8 | (two & 0xff);
    struct op op = decode_immediate(NONE, FLAGS_NO, two >> 8 & 15, n, imm12);
    switch (one >> 4 & 31) {
    case 0: op.kind = n == 15 ? ADR : ADD; break;
    case 10:
        op.kind = n == 15 ? ADR : SUB;
        op.imm = n == 15 ? 0 - imm12 : imm12;
        break;
    case 4: op.kind = MOV; op.imm = n << 12 | imm12; break;
    case 12: op.kind = MOVT; op.imm = n << 12 | imm12; break;
    default: break;
    }
    return op;
}

/* Bit fields and saturation. `imm` of an insertion is 1 where it clears the field. */
static struct op decode_field(uint32_t one, uint32_t two) {
    uint32_t low = (two >> 12 & 7) << 2 | (two >> 6 & 3);
    uint32_t which = one >> 4 & 31;
    uint32_t field = two & 31;
    struct op op = decode_immediate(NONE, FLAGS_NO, two >> 8 & 15, one & 15, 0);
    op.amount = (uint8_t)low;
    op.is_signed = which < 24;
    op.shift = (one & 0x20) != 0 ? ASR : LSL;
    switch (which) {
    case 16: case 18: op.kind = SATURATE; op.width = (uint8_t)(field + 1); break;
    case 24: case 26: op.kind = SATURATE; op.width = (uint8_t)field; break;
    case 20: case 28: op.kind = EXTRACT; op.width = (uint8_t)(field + 1); break;
    case 22:
        op.kind = field >= low ? INSERT : NONE;
        op.width = (uint8_t)(field - low + 1);
        op.imm = (one & 15) == 15;
        break;
    default: break;
    }
    return op;
}

static struct op decode_branch(uint32_t one, uint32_t two) {
    uint32_t s = one >> 10 & 1;
    uint32_t j1 = two >> 13 & 1;
    uint32_t j2 = two >> 11 & 1;
    uint32_t far = (1 - (j1 ^ s)) << 23 | (1 - (j2 ^ s)) << 22 | (one & 0x3ff) << 12 | (two & 0x7ff) << 1;
    struct op op = decode_immediate(NONE, FLAGS_NO, 0, 0, far - (s << 24));
    uint32_t which = one >> 4 & 0x7f;
    if ((two & 0x1000) != 0) {
        op.kind = (two & 0x4000) != 0 ? BL : B;
    } else if ((two & 0x4000) == 0 && (one >> 7 & 7) != 7) {
        op.kind = B;
        op.condition = one >> 6 & 15;
        op.imm = (j2 << 19 | j1 << 18 | (one & 0x3f) << 12 | (two & 0x7ff) << 1) - (s << 20);
    } else if ((two & 0x4000) == 0 && which == 0x3b) {
        op.kind = BARRIER;
    } else if ((two & 0x4000) == 0 && which == 0x3a && (two & 0xff) < 2) {
        op.kind = NOP;
    }
    return op;
}

static struct op decode_access(uint32_t one, uint32_t two) {
    static const uint8_t widths[4] = {1, 2, 4, 0};
    bool is_load = (one & 0x10) != 0;
    bool is_relative = is_load && (one & 15) == 15;
    uint32_t way = two >> 8 & 7;
    struct op op = decode_immediate(is_load ? LDR : STR, FLAGS_NO, two >> 12, one & 15, two & 0xfff);
    op.width = widths[one >> 5 & 3];
    op.is_signed = (one & 0x100) != 0;
    bool is_one = op.width != 0 && (is_load || (!op.is_signed && op.n != 15));
    if (is_relative) {
        op.how = (one & 0x80) != 0 ? PRE | UP : PRE;
    } else if ((one & 0x80) == 0 && (two & 0x800) != 0) {
        op.imm = two & 0xff;
        op.how = (uint8_t)way;
        is_one = is_one && (way & (PRE | WRITE_BACK)) != 0;
    } else if ((one & 0x80) == 0) {
        op.is_register = true;
        op.m = two & 15;
        op.amount = two >> 4 & 3;
        is_one = is_one && (two & 0xfc0) == 0;
    }
    bool is_preload = is_load && op.d == 15 && op.width != 4;
    op.kind = !is_one ? NONE : is_preload ? NOP : op.kind;
    return op;
}

/* Shifts by a register, extensions, reversals. */
static struct op decode_registers(uint32_t one, uint32_t two) {
    static const uint8_t reversals[4] = {REV, REV16, RBIT, REVSH};
    uint32_t high = one >> 4 & 15;
    uint32_t low = two >> 4 & 15;
    struct op op = decode_register(NONE, FLAGS_NO, two >> 8 & 15, one & 15, two & 15);
    if (high < 8 && low == 0) {
        op.kind = SHIFT;
        op.shift = (uint8_t)(high >> 1);
        op.flags = (high & 1) != 0 ? FLAGS_YES : FLAGS_NO;
    } else if (high < 6 && (high & 2) == 0 && low >= 8 && (HAS_DSP != 0 || (one & 15) == 15)) {
        op.kind = EXTEND;
        op.width = high < 4 ? 2 : 1;
        op.is_signed = (high & 1) == 0;
        op.amount = (uint8_t)((low & 3) << 3);
    } else if (high == 9 && low >= 8 && low < 12) {
        op.kind = reversals[low & 3];
    } else if (high == 11 && low == 8) {
        op.kind = CLZ;
    }
    op.kind = (two & 0xf000) == 0xf000 ? op.kind : NONE;
    return op;
}

static struct op decode_multiply(uint32_t one, uint32_t two) {
    struct op op = decode_register(NONE, FLAGS_NO, two >> 8 & 15, one & 15, two & 15);
    uint32_t low = two >> 4 & 15;
    op.a = (uint8_t)(two >> 12);
    if ((one & 0x80) == 0) {
        op.kind = (one >> 4 & 7) != 0 || low > 1 ? NONE : low == 1 ? MLS : op.a == 15 ? MUL : MLA;
        return op;
    }
    switch ((one >> 4 & 7) << 4 | low) {
    case 0x00: op.kind = SMULL; break;
    case 0x1f: op.kind = SDIV; break;
    case 0x20: op.kind = UMULL; break;
    case 0x3f: op.kind = UDIV; break;
    case 0x40: op.kind = SMLAL; break;
    case 0x60: op.kind = UMLAL; break;
    default: break;
    }
    return op;
}

static struct op decode_second(uint32_t one, uint32_t two) {
    if ((two & 0x8000) != 0) {
        return decode_branch(one, two);
    }
    if ((one & 0x200) == 0) {
        return decode_processing(one, two, false);
    }
    return (one & 0x100) != 0 ? decode_field(one, two) : decode_long_immediate(one, two);
}

struct op decode32(uint32_t one, uint32_t two) {
    struct op op = decode_immediate(NONE, FLAGS_NO, 0, 0, 0);
    uint32_t which = one >> 11 & 3;
    bool is_plain = (one & 0x400) == 0; /* else it is a coprocessor's */
    if (which == 1 && is_plain) {
        op = (one & 0x200) != 0 ? decode_processing(one, two, true)
            : (one & 0x40) != 0 ? decode_two(one, two) : decode_several(one, two);
    } else if (which == 2) {
        op = decode_second(one, two);
    } else if (which == 3 && is_plain) {
        op = (one & 0x200) == 0 ? decode_access(one, two)
            : (one & 0x100) == 0 ? decode_registers(one, two) : decode_multiply(one, two);
    }
    op.size = 4;
    return op;
}
