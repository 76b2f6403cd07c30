#include "code.h"

#include <string.h>

#include "chip.h"

static struct { struct op op; bool is_known; } in_flash[FLASH_BYTES / 2], in_ram[RAM_BYTES / 2];

static uint32_t half_of(const uint8_t *bytes, uint32_t at, uint32_t size) {
    return at + 2 <= size ? bytes[at] | (uint32_t)bytes[at + 1] << 8 : 0;
}

/* What ARMv6-M has: of 32 bits BL and the barriers alone (and special registers, which aren't modelled). */
static bool is_of_v6m(const struct op *op, uint32_t one, uint32_t two) {
    if (op->size == 2) {
        return op->kind != CBZ && op->kind != IT;
    }
    bool is_barrier = one == 0xf3bf && (two & 0xff00) == 0x8f00 && (two >> 4 & 15) >= 4 && (two >> 4 & 15) <= 6;
    return is_barrier || ((one & 0xf800) == 0xf000 && (two & 0xd000) == 0xd000);
}

static struct op decode(uint32_t one, uint32_t two) {
    struct op op = one >> 11 >= 29 ? decode32(one, two) : decode16(one);
    if (CORE_V6M && !is_of_v6m(&op, one, two)) {
        op.kind = NONE;
    }
    if (op.kind == NONE) {
        op.imm = one;
    }
    return op;
}

const struct op *code_at(uint32_t address) {
    bool is_in_ram = RUNS_RAM && address - RAM_AT < RAM_BYTES;
    uint32_t size = is_in_ram ? RAM_BYTES : FLASH_BYTES;
    uint32_t at = address - (is_in_ram ? RAM_AT : FLASH_AT);
    const uint8_t *bytes = is_in_ram ? chip.ram : chip.flash;
    if (at >= size) {
        return part_code(address);
    }
    bool *is_known = is_in_ram ? &in_ram[at / 2].is_known : &in_flash[at / 2].is_known;
    struct op *op = is_in_ram ? &in_ram[at / 2].op : &in_flash[at / 2].op;
    if (!*is_known) {
        *op = decode(half_of(bytes, at & ~1u, size), half_of(bytes, (at & ~1u) + 2, size));
        *is_known = true;
    }
    return op;
}

void code_clear(void) {
    memset(in_flash, 0, sizeof in_flash);
    memset(in_ram, 0, sizeof in_ram);
}

/* An instruction of 32 bits may begin before what changed. */
void code_change(uint32_t at, uint32_t width) {
    for (uint32_t each = at >= 2 ? at - 2 : 0; RUNS_RAM && each < at + width; each += 2) {
        in_ram[each / 2].is_known = false;
    }
}
