/* Data processing: each deed as ARMv7-M's manual has it. */
#include "chip.h"
#include "core.h"
#include "decode.h"

static uint32_t rotated(uint32_t value, uint32_t by) {
    return by == 0 ? value : value >> by | value << (32 - by);
}

uint32_t deed_shifted(uint32_t value, uint32_t type, uint32_t amount, uint32_t *carry) {
    int64_t wide = (int32_t)value;
    uint32_t most = amount > 32 ? 32 : amount;
    if (type == RRX) {
        uint32_t shifted = value >> 1 | *carry << 31;
        *carry = value & 1;
        return shifted;
    }
    if (amount == 0) {
        return value;
    }
    switch (type) {
    case LSL:
        *carry = amount <= 32 ? (uint32_t)((uint64_t)value << amount >> 32 & 1) : 0;
        return amount < 32 ? value << amount : 0;
    case LSR:
        *carry = amount <= 32 ? value >> (amount - 1) & 1 : 0;
        return amount < 32 ? value >> amount : 0;
    case ASR:
        *carry = (uint32_t)(wide >> (most - 1) & 1);
        return (uint32_t)(wide >> most);
    default:
        value = rotated(value, amount & 31);
        *carry = value >> 31;
        return value;
    }
}

void deed_set_nz(uint32_t value) {
    core.n = value >> 31;
    core.z = value == 0;
}

bool deed_sets(const struct op *op) {
    return op->flags == FLAGS_YES || (op->flags == FLAGS_OUTSIDE_IT && core.it_was == 0);
}

void deed_keep(const struct op *op, uint32_t value) {
    if (op->d == 15) {
        core.next = value & ~1u;
        core_pass(core.branch_cycles);
        return;
    }
    core.r[op->d] = value;
    if (op->d == 13) {
        core_note_stack();
    }
}

/* The second operand; the carry of its shift. */
static uint32_t operand(const struct op *op, uint32_t *carry) {
    if (op->is_register) {
        return deed_shifted(core.r[op->m], op->shift, op->amount, carry);
    }
    *carry = op->carry == CARRY_STAYS ? *carry : op->carry;
    return op->imm;
}

static uint32_t logic(uint32_t kind, uint32_t one, uint32_t two) {
    switch (kind) {
    case AND: case TST: return one & two;
    case BIC: return one & ~two;
    case ORR: return one | two;
    case ORN: return one | ~two;
    case MOV: return two;
    case MVN: return ~two;
    default: return one ^ two;
    }
}

void deed_logic(const struct op *op) {
    uint32_t carry = core.c;
    uint32_t two = operand(op, &carry);
    uint32_t value = logic(op->kind, core.r[op->n], two);
    if (deed_sets(op)) {
        deed_set_nz(value);
        core.c = carry;
    }
    if (op->kind != TST && op->kind != TEQ) {
        deed_keep(op, value);
    }
}

static uint32_t added(uint32_t one, uint32_t two, uint32_t carry, bool sets) {
    uint64_t sum = (uint64_t)one + two + carry;
    uint32_t value = (uint32_t)sum;
    if (sets) {
        deed_set_nz(value);
        core.c = (uint32_t)(sum >> 32);
        core.v = (~(one ^ two) & (one ^ value)) >> 31;
    }
    return value;
}

void deed_sum(const struct op *op) {
    uint32_t unused = core.c;
    uint32_t kind = op->kind;
    uint32_t two = operand(op, &unused);
    uint32_t one = kind == RSB ? ~core.r[op->n] : core.r[op->n];
    two = kind == SBC || kind == SUB || kind == CMP ? ~two : two;
    uint32_t carry = kind == ADC || kind == SBC ? core.c : kind != ADD && kind != CMN;
    uint32_t value = added(one, two, carry, deed_sets(op));
    if (kind != CMP && kind != CMN) {
        deed_keep(op, value);
    }
}

void deed_shift(const struct op *op) {
    uint32_t carry = core.c;
    uint32_t value = deed_shifted(core.r[op->n], op->shift, core.r[op->m] & 0xff, &carry);
    if (deed_sets(op)) {
        deed_set_nz(value);
        core.c = carry;
    }
    core.r[op->d] = value;
}

void deed_movt(const struct op *op) {
    core.r[op->d] = (core.r[op->d] & 0xffff) | op->imm << 16;
}

void deed_adr(const struct op *op) {
    core.r[op->d] = ((core.at + 4) & ~3u) + op->imm;
}

void deed_extend(const struct op *op) {
    uint32_t value = rotated(core.r[op->m], op->amount);
    uint32_t up = 32 - 8u * op->width;
    uint32_t added_to = op->n == 15 ? 0 : core.r[op->n];
    core.r[op->d] = added_to + (op->is_signed ? (uint32_t)((int32_t)(value << up) >> up) : value << up >> up);
}

void deed_extract(const struct op *op) {
    uint32_t value = core.r[op->n] << (32 - op->width - op->amount);
    uint32_t down = 32u - op->width;
    core.r[op->d] = op->is_signed ? (uint32_t)((int32_t)value >> down) : value >> down;
}

void deed_insert(const struct op *op) {
    uint32_t mask = (uint32_t)((UINT64_C(1) << op->width) - 1) << op->amount;
    uint32_t value = op->imm != 0 ? 0 : core.r[op->n] << op->amount;
    core.r[op->d] = (core.r[op->d] & ~mask) | (value & mask);
}

void deed_saturate(const struct op *op) {
    uint32_t carry = 0;
    uint32_t amount = op->shift == ASR && op->amount == 0 ? 32 : op->amount;
    int64_t value = (int32_t)deed_shifted(core.r[op->n], op->shift, amount, &carry);
    int64_t most = (INT64_C(1) << (op->is_signed ? op->width - 1 : op->width)) - 1;
    int64_t least = op->is_signed ? -most - 1 : 0;
    core.q |= value < least || value > most;
    core.r[op->d] = (uint32_t)(value < least ? least : value > most ? most : value);
}

static uint32_t zeros(uint32_t value) {
    return value == 0 ? 32 : (uint32_t)__builtin_clz(value);
}

static uint32_t bits_reversed(uint32_t value) {
    uint32_t to = 0;
    for (uint32_t at = 0; at < 32; at++) {
        to |= (value >> at & 1) << (31 - at);
    }
    return to;
}

void deed_bits(const struct op *op) {
    uint32_t value = core.r[op->m];
    switch (op->kind) {
    case CLZ: value = zeros(value); break;
    case RBIT: value = bits_reversed(value); break;
    case REV: value = __builtin_bswap32(value); break;
    case REV16: value = (value & 0xff00ff) << 8 | (value >> 8 & 0xff00ff); break;
    default: value = (uint32_t)(int16_t)__builtin_bswap16((uint16_t)value); break;
    }
    core.r[op->d] = value;
}

void deed_multiply(const struct op *op) {
    uint32_t value = core.r[op->n] * core.r[op->m];
    if (deed_sets(op)) {
        deed_set_nz(value);
    }
    core.r[op->d] = value;
}

void deed_multiply_add(const struct op *op) {
    uint32_t product = core.r[op->n] * core.r[op->m];
    core.r[op->d] = core.r[op->a] + (op->kind == MLS ? 0 - product : product);
    core_pass(MULTIPLIES_ADDING_CYCLES);
}

void deed_multiply_long(const struct op *op) {
    bool is_signed = op->kind == SMULL || op->kind == SMLAL;
    bool adds = op->kind == UMLAL || op->kind == SMLAL;
    uint32_t one = core.r[op->n];
    uint32_t two = core.r[op->m];
    uint64_t value = is_signed ? (uint64_t)((int64_t)(int32_t)one * (int32_t)two) : (uint64_t)one * two;
    value += adds ? (uint64_t)core.r[op->d] << 32 | core.r[op->a] : 0;
    core_pass(adds ? ADDS_LONG_CYCLES : MULTIPLIES_LONG_CYCLES);
    core.r[op->a] = (uint32_t)value;
    core.r[op->d] = (uint32_t)(value >> 32);
}

/* 2 to 12 cycles, as the quotient has bits. */
static void pass_division(uint32_t by, uint32_t value) {
    uint32_t bits = by == 0 || value < by ? 0 : zeros(by) - zeros(value) + 1;
    core_pass(1 + (bits + 2) / 3);
}

void deed_divide(const struct op *op) {
    uint32_t value = core.r[op->n];
    uint32_t by = core.r[op->m];
    bool is_signed = op->kind == SDIV;
    bool is_minus = is_signed && (value ^ by) >> 31 != 0;
    value = is_signed && value >> 31 != 0 ? 0 - value : value;
    by = is_signed && by >> 31 != 0 ? 0 - by : by;
    pass_division(by, value);
    uint32_t quotient = by == 0 ? 0 : value / by;
    core.r[op->d] = is_minus ? 0 - quotient : quotient;
}
