/* Branches, the IT instruction, masks; the table of all deeds. */
#include "chip.h"
#include "core.h"
#include "decode.h"
#include "told.h"

static bool holds(uint32_t condition) {
    bool is = false;
    switch (condition >> 1) {
    case 0: is = core.z != 0; break;
    case 1: is = core.c != 0; break;
    case 2: is = core.n != 0; break;
    case 3: is = core.v != 0; break;
    case 4: is = core.c != 0 && core.z == 0; break;
    case 5: is = core.n == core.v; break;
    case 6: is = core.n == core.v && core.z == 0; break;
    default: return true;
    }
    return is != ((condition & 1) != 0);
}

static void take(const struct op *op) {
    core.next = core.at + 4 + op->imm;
    core_pass(core.branch_cycles);
}

void deed_branch(const struct op *op) {
    if (op->kind == BL) {
        core.r[14] = core.next | 1;
    }
    if (holds(op->condition)) {
        take(op);
    }
}

void deed_go_to(uint32_t to) {
    core_pass(core.branch_cycles);
    if (to >= 0xf0000000 && core.exception != 0) {
        core_leave(to);
        return;
    }
    core.next = to & ~1u;
    if ((to & 1) == 0) {
        violation("a branch to %08x, which isn't Thumb", (unsigned)to);
        core_fail();
    }
}

void deed_branch_by_register(const struct op *op) {
    uint32_t to = core.r[op->m];
    if (op->kind == BLX) {
        core.r[14] = core.next | 1;
    }
    deed_go_to(to);
}

void deed_compare_branch(const struct op *op) {
    if ((core.r[op->n] != 0) == (op->condition != 0)) {
        take(op);
    }
}

void deed_it(const struct op *op) {
    core.it = op->imm;
}

void deed_nothing(const struct op *op) {
    (void)op;
}

void deed_masks(const struct op *op) {
    core.masks = op->imm != 0;
    chip.is_due = true;
}

void deed_barrier(const struct op *op) {
    (void)op;
    core_pass(3);
}

void deed_unknown(const struct op *op) {
    violation("an instruction at %08x that this core hasn't, or that isn't modelled: %04x", (unsigned)core.at,
              (unsigned)op->imm);
    core_fail();
}

bool deed_is_left_out(void) {
    uint32_t it = core.it;
    core.it_was = it;
    if (it == 0) {
        return false;
    }
    core.it = (it & 7) == 0 ? 0 : (it & 0xe0) | (it << 1 & 0x1f);
    return !holds(it >> 4);
}

deed *const deeds[KINDS] = {
    [NONE] = deed_unknown,
    [AND] = deed_logic, [BIC] = deed_logic, [ORR] = deed_logic, [ORN] = deed_logic, [EOR] = deed_logic,
    [MOV] = deed_logic, [MVN] = deed_logic, [TST] = deed_logic, [TEQ] = deed_logic,
    [ADD] = deed_sum, [ADC] = deed_sum, [SBC] = deed_sum, [SUB] = deed_sum, [RSB] = deed_sum, [CMP] = deed_sum,
    [CMN] = deed_sum,
    [SHIFT] = deed_shift, [MOVT] = deed_movt, [ADR] = deed_adr, [EXTEND] = deed_extend, [EXTRACT] = deed_extract,
    [INSERT] = deed_insert, [SATURATE] = deed_saturate,
    [CLZ] = deed_bits, [RBIT] = deed_bits, [REV] = deed_bits, [REV16] = deed_bits, [REVSH] = deed_bits,
    [MUL] = deed_multiply, [MLA] = deed_multiply_add, [MLS] = deed_multiply_add, [UMULL] = deed_multiply_long,
    [SMULL] = deed_multiply_long, [UMLAL] = deed_multiply_long, [SMLAL] = deed_multiply_long, [UDIV] = deed_divide,
    [SDIV] = deed_divide,
    [LDR] = deed_load, [STR] = deed_store, [LDRD] = deed_two, [STRD] = deed_two, [LDM] = deed_several,
    [STM] = deed_several, [TABLE] = deed_table,
    [B] = deed_branch, [BL] = deed_branch, [BX] = deed_branch_by_register, [BLX] = deed_branch_by_register,
    [CBZ] = deed_compare_branch, [IT] = deed_it, [NOP] = deed_nothing, [CPS] = deed_masks, [BARRIER] = deed_barrier};
