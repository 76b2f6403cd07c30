/* The flash's wait states, and its two prefetch buffers of 8 bytes (PM0075). */
#include "flash.h"

#include <stdbool.h>

#include "chip.h"
#include "core.h"

static uint32_t wait_states;
static bool has_prefetch;
static uint64_t line;       /* of 8 bytes that the prefetch buffer has .. */
static uint64_t next_ready; /* .. and the time at which the next one is there */

void flash_set(uint32_t acr) {
    wait_states = acr & 7;
    has_prefetch = (acr & 0x10) != 0;
}

void flash_leave(void) {
    line = UINT64_MAX;
}

void flash_reset(void) {
    line = UINT64_MAX;
    next_ready = 0;
}

void flash_pass_load(uint32_t offset) {
    (void)offset;
    core_pass(1 + wait_states);
    next_ready += chip.cycle * (1 + wait_states);
}

void flash_fetch(uint32_t at, uint32_t size) {
    uint64_t wanted = (at + size - 1) >> 3;
    if (wanted == line) {
        return;
    }
    bool is_next = wanted == line + 1 && has_prefetch;
    if (is_next && chip.now < next_ready) {
        chip.now = next_ready;
    } else if (!is_next) {
        bool is_split = at >> 3 != wanted && at >> 3 != line;
        chip.now += chip.cycle * wait_states * (is_split ? 2 : 1);
    }
    line = wanted;
    next_ready = chip.now + chip.cycle * (1 + wait_states);
}
