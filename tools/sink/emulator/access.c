/* Loads and stores. A base register changes where the access didn't fail. */
#include "core.h"
#include "decode.h"
#include "memory.h"
#include "told.h"

/* The address that an instruction starts from, and with what is added to it. */
static uint32_t base_of(const struct op *op) {
    return op->n == 15 ? (core.at + 4) & ~3u : core.r[op->n];
}

static uint32_t far_of(const struct op *op) {
    uint32_t carry = 0;
    uint32_t by = op->is_register ? deed_shifted(core.r[op->m], LSL, op->amount, &carry) : op->imm;
    return (op->how & UP) != 0 ? base_of(op) + by : base_of(op) - by;
}

static void set_base(const struct op *op, uint32_t far) {
    if ((op->how & WRITE_BACK) != 0 && !core.is_faulty) {
        core.r[op->n] = far;
        core_note_stack();
    }
}

static uint32_t extended(const struct op *op, uint32_t value) {
    uint32_t up = 32 - 8u * op->width;
    return op->is_signed ? (uint32_t)((int32_t)(value << up) >> up) : value;
}

void deed_load(const struct op *op) {
    uint32_t far = far_of(op);
    uint32_t value = memory_load((op->how & PRE) != 0 ? far : base_of(op), op->width);
    if (core.is_faulty) {
        return;
    }
    set_base(op, far);
    if (op->d == 15) {
        deed_go_to(value);
        return;
    }
    core.r[op->d] = extended(op, value);
    if (op->d == 13) {
        core_note_stack();
    }
}

void deed_store(const struct op *op) {
    uint32_t far = far_of(op);
    memory_store((op->how & PRE) != 0 ? far : base_of(op), op->width, core.r[op->d]);
    set_base(op, far);
}

static bool is_aligned(uint32_t at) {
    if ((at & 3) != 0) {
        violation("a load or store of several registers at %08x, which isn't aligned", (unsigned)at);
        core_fail();
    }
    return (at & 3) == 0;
}

void deed_two(const struct op *op) {
    uint32_t base = base_of(op);
    uint32_t far = (op->how & UP) != 0 ? base + op->imm : base - op->imm;
    uint32_t at = (op->how & PRE) != 0 ? far : base;
    if (!is_aligned(at)) {
        return;
    }
    if (op->kind == STRD) {
        memory_store(at, 4, core.r[op->d]);
        memory_store(at + 4, 4, core.r[op->a]);
    } else {
        uint32_t low = memory_load(at, 4);
        uint32_t high = memory_load(at + 4, 4);
        core.r[op->d] = core.is_faulty ? core.r[op->d] : low;
        core.r[op->a] = core.is_faulty ? core.r[op->a] : high;
    }
    set_base(op, far);
}

/* One register of several, which may be the program counter: what is loaded for that comes back. */
static uint32_t move_one(const struct op *op, uint32_t which, uint32_t at) {
    if (op->kind == STM) {
        memory_store(at, 4, core.r[which]);
        return 0;
    }
    uint32_t value = memory_load(at, 4);
    if (which < 15 && !core.is_faulty) {
        core.r[which] = value;
    }
    return which == 15 ? value : 0;
}

void deed_several(const struct op *op) {
    uint32_t count = (uint32_t)__builtin_popcount(op->imm & 0xffff);
    uint32_t from = core.r[op->n];
    uint32_t end = (op->how & UP) != 0 ? from + 4 * count : from - 4 * count;
    uint32_t at = (op->how & UP) != 0 ? from : end;
    uint32_t to = 0;
    if (!is_aligned(at)) {
        return;
    }
    for (uint32_t each = 0; each < 16 && !core.is_faulty; each++) {
        bool is_named = (op->imm >> each & 1) != 0;
        to |= is_named ? move_one(op, each, at) : 0;
        at += is_named ? 4 : 0;
    }
    set_base(op, end);
    if (op->kind == LDM && (op->imm & 0x8000) != 0 && !core.is_faulty) {
        deed_go_to(to);
    }
}

void deed_table(const struct op *op) {
    uint32_t at = base_of(op);
    at = op->n == 15 ? core.at + 4 : at;
    core.next = core.at + 4 + 2 * memory_load(at + op->width * core.r[op->m], op->width);
    core_pass(1 + core.branch_cycles);
}
