/* Instructions of 16 bits, by the first bits of them. */
#include "decode.h"

struct op decode_immediate(enum kind kind, uint32_t flags, uint32_t d, uint32_t n, uint32_t imm) {
    struct op op = {.kind = (uint8_t)kind, .size = 2, .flags = (uint8_t)flags, .d = (uint8_t)d, .n = (uint8_t)n,
                    .imm = imm, .carry = CARRY_STAYS, .condition = ALWAYS, .how = PRE | UP};
    return op;
}

struct op decode_register(enum kind kind, uint32_t flags, uint32_t d, uint32_t n, uint32_t m) {
    struct op op = decode_immediate(kind, flags, d, n, 0);
    op.m = (uint8_t)m;
    op.is_register = true;
    return op;
}

void decode_shift(struct op *op, uint32_t type, uint32_t amount) {
    op->shift = (uint8_t)type;
    op->amount = (uint8_t)amount;
    if (amount == 0 && type != LSL) {
        op->shift = type == ROR ? RRX : (uint8_t)type;
        op->amount = type == ROR ? 1 : 32;
    }
}

static struct op none(void) {
    return decode_immediate(NONE, FLAGS_NO, 0, 0, 0);
}

static struct op access(enum kind kind, uint32_t width, uint32_t d, uint32_t n, uint32_t imm) {
    struct op op = decode_immediate(kind, FLAGS_NO, d, n, imm);
    op.width = (uint8_t)width;
    return op;
}

/* Shifts, additions and what has an immediate of 8 bits. */
static struct op decode_plain(uint32_t half) {
    static const uint8_t of_8_bits[4] = {MOV, CMP, ADD, SUB};
    uint32_t d = half & 7;
    uint32_t n = half >> 3 & 7;
    uint32_t m = half >> 6 & 7;
    uint32_t d8 = half >> 8 & 7;
    uint32_t which = half >> 11;
    if (which < 3) {
        struct op op = decode_register(MOV, FLAGS_OUTSIDE_IT, d, 0, n);
        decode_shift(&op, which, half >> 6 & 31);
        return op;
    }
    if (which == 3) {
        enum kind kind = (half & 0x200) != 0 ? SUB : ADD;
        return (half & 0x400) != 0 ? decode_immediate(kind, FLAGS_OUTSIDE_IT, d, n, m)
                                   : decode_register(kind, FLAGS_OUTSIDE_IT, d, n, m);
    }
    return decode_immediate(of_8_bits[which & 3], which == 5 ? FLAGS_YES : FLAGS_OUTSIDE_IT, d8, d8, half & 0xff);
}

/* Two low registers. */
static struct op decode_two_registers(uint32_t half) {
    static const uint8_t kinds[16] = {AND, EOR, SHIFT, SHIFT, SHIFT, ADC, SBC, SHIFT,
                                      TST, RSB, CMP, CMN, ORR, MUL, BIC, MVN};
    static const uint8_t shifts[16] = {0, 0, LSL, LSR, ASR, 0, 0, ROR};
    uint32_t which = half >> 6 & 15;
    enum kind kind = kinds[which];
    bool compares = kind == TST || kind == CMP || kind == CMN;
    if (kind == RSB) {
        return decode_immediate(RSB, FLAGS_OUTSIDE_IT, half & 7, half >> 3 & 7, 0);
    }
    struct op op = decode_register(kind, compares ? FLAGS_YES : FLAGS_OUTSIDE_IT, half & 7, half & 7, half >> 3 & 7);
    op.shift = shifts[which];
    return op;
}

/* Any two registers. */
static struct op decode_high_registers(uint32_t half) {
    uint32_t high = (half & 7) | (half >> 4 & 8);
    uint32_t other = half >> 3 & 15;
    switch (half >> 8 & 3) {
    case 0: return decode_register(ADD, FLAGS_NO, high, high, other);
    case 1: return decode_register(CMP, FLAGS_YES, 0, high, other);
    case 2: return decode_register(MOV, FLAGS_NO, high, 0, other);
    default: return decode_register((half & 0x80) != 0 ? BLX : BX, FLAGS_NO, 0, 0, other);
    }
}

/* Loads and stores by two registers. */
static struct op decode_indexed(uint32_t half) {
    static const uint8_t widths[8] = {4, 2, 1, 1, 4, 2, 1, 2};
    uint32_t which = half >> 9 & 7;
    struct op op = decode_register(which < 3 ? STR : LDR, FLAGS_NO, half & 7, half >> 3 & 7, half >> 6 & 7);
    op.width = widths[which];
    op.is_signed = which == 3 || which == 7;
    return op;
}

/* Loads and stores with an immediate: words, bytes, halves. */
static struct op decode_offset(uint32_t half) {
    static const uint8_t shifts[3] = {2, 0, 1};
    uint32_t shift = shifts[(half >> 12) - 6];
    uint32_t imm = (half >> 6 & 31) << shift;
    return access((half & 0x800) != 0 ? LDR : STR, 1u << shift, half & 7, half >> 3 & 7, imm);
}

/* What goes by the stack pointer or the program counter. */
static struct op decode_relative(uint32_t half) {
    uint32_t d = half >> 8 & 7;
    uint32_t imm = (half & 0xff) << 2;
    switch (half >> 11) {
    case 9: return access(LDR, 4, d, 15, imm);
    case 18: return access(STR, 4, d, 13, imm);
    case 19: return access(LDR, 4, d, 13, imm);
    case 20: return decode_immediate(ADR, FLAGS_NO, d, 15, imm);
    default: return decode_immediate(ADD, FLAGS_NO, d, 13, imm);
    }
}

static struct op decode_push(uint32_t half, bool is_load) {
    uint32_t list = (half & 0xff) | (half & 0x100) << (is_load ? 7 : 6);
    struct op op = decode_immediate(is_load ? LDM : STM, FLAGS_NO, 0, 13, list);
    op.how = is_load ? UP | WRITE_BACK : PRE | WRITE_BACK;
    return op;
}

static struct op decode_several(uint32_t half) {
    uint32_t n = half >> 8 & 7;
    bool is_load = (half & 0x800) != 0;
    struct op op = decode_immediate(is_load ? LDM : STM, FLAGS_NO, 0, n, half & 0xff);
    op.how = is_load && (half >> n & 1) != 0 ? UP : UP | WRITE_BACK;
    return op;
}

static struct op decode_compare_branch(uint32_t half) {
    struct op op = decode_immediate(CBZ, FLAGS_NO, 0, half & 7, (half >> 3 & 0x1f) << 1 | (half >> 9 & 1) << 6);
    op.condition = (half & 0x800) != 0;
    return op;
}

static struct op decode_extension(uint32_t half) {
    struct op op = decode_register(EXTEND, FLAGS_NO, half & 7, 15, half >> 3 & 7);
    op.width = (half & 0x40) != 0 ? 1 : 2;
    op.is_signed = (half & 0x80) == 0;
    return op;
}

static struct op decode_hint(uint32_t half) {
    bool sleeps = (half >> 4 & 15) == 2 || (half >> 4 & 15) == 3;
    return decode_immediate((half & 15) != 0 ? IT : sleeps ? NONE : NOP, FLAGS_NO, 0, 0, half & 0xff);
}

/* The rest: stack, extensions, hints. */
static struct op decode_other(uint32_t half) {
    static const uint8_t reversals[4] = {REV, REV16, NONE, REVSH};
    switch (half >> 8 & 15) {
    case 0:
        return decode_immediate((half & 0x80) != 0 ? SUB : ADD, FLAGS_NO, 13, 13, (half & 0x7f) << 2);
    case 1: case 3: case 9: case 11: return decode_compare_branch(half);
    case 2: return decode_extension(half);
    case 4: case 5: return decode_push(half, false);
    case 6: return (half & 0xffef) == 0xb662 ? decode_immediate(CPS, FLAGS_NO, 0, 0, half & 0x10) : none();
    case 10: return decode_register(reversals[half >> 6 & 3], FLAGS_NO, half & 7, 0, half >> 3 & 7);
    case 12: case 13: return decode_push(half, true);
    case 15: return decode_hint(half);
    default: return none();
    }
}

static struct op decode_branch(uint32_t half) {
    struct op op = decode_immediate(B, FLAGS_NO, 0, 0, (uint32_t)(int8_t)(half & 0xff) << 1);
    op.condition = half >> 8 & 15;
    op.kind = op.condition >= ALWAYS ? NONE : B; /* 14 isn't one, 15 is SVC */
    return op;
}

struct op decode16(uint32_t half) {
    switch (half >> 11) {
    case 0: case 1: case 2: case 3: case 4: case 5: case 6: case 7: return decode_plain(half);
    case 8: return (half & 0x400) == 0 ? decode_two_registers(half) : decode_high_registers(half);
    case 10: case 11: return decode_indexed(half);
    case 12: case 13: case 14: case 15: case 16: case 17: return decode_offset(half);
    case 9: case 18: case 19: case 20: case 21: return decode_relative(half);
    case 22: case 23: return decode_other(half);
    case 24: case 25: return decode_several(half);
    case 26: case 27: return decode_branch(half);
    case 28: return decode_immediate(B, FLAGS_NO, 0, 0, (uint32_t)((int32_t)(half << 21) >> 20));
    default: return none();
    }
}
