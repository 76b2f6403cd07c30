/* The flash's wait states, and what the ART accelerator keeps of it (RM0383, "Embedded Flash memory interface"): 64
 * lines of 16 bytes for instructions, 8 for data, of which the one that was used longest ago goes; and the line that
 * comes next is fetched meanwhile. */
#include "flash.h"

#include <stdbool.h>
#include <string.h>

#include "chip.h"
#include "core.h"

enum { CODE_LINES = 64, DATA_LINES = 8, LATENCY = 15, PREFETCH = 1 << 8, CACHES_CODE = 1 << 9, CACHES_DATA = 1 << 10 };

struct cache {
    uint32_t lines[CODE_LINES]; /* its number plus 1; 0 for none */
    uint64_t used[CODE_LINES];
    uint32_t size;
};

static struct cache code = {.size = CODE_LINES};
static struct cache data = {.size = DATA_LINES};
static uint64_t uses;
static uint32_t acr;
static uint64_t line;       /* that the core has .. */
static uint64_t next_ready; /* .. and the time at which the one behind it is there */

void flash_set(uint32_t value) {
    acr = value;
}

void flash_leave(void) {
    line = UINT64_MAX;
}

void flash_reset(void) {
    line = UINT64_MAX;
    next_ready = 0;
    memset(code.lines, 0, sizeof code.lines);
    memset(data.lines, 0, sizeof data.lines);
}

/* Whether a cache has a line, which it has from now on in any case. */
static bool has(struct cache *cache, uint32_t wanted) {
    uint32_t oldest = 0;
    uses++;
    for (uint32_t each = 0; each < cache->size; each++) {
        if (cache->lines[each] == wanted + 1) {
            cache->used[each] = uses;
            return true;
        }
        oldest = cache->used[each] < cache->used[oldest] ? each : oldest;
    }
    cache->lines[oldest] = wanted + 1;
    cache->used[oldest] = uses;
    return false;
}

void flash_pass_load(uint32_t offset) {
    bool is_there = (acr & CACHES_DATA) != 0 && has(&data, offset >> 4);
    core_pass(is_there ? 1 : 1 + (acr & LATENCY));
    next_ready += is_there ? 0 : chip.cycle * (1 + (acr & LATENCY));
}

/* Waits for a line that isn't the one the core has. */
static void take(uint64_t wanted) {
    bool is_kept = (acr & CACHES_CODE) != 0 && has(&code, (uint32_t)wanted);
    bool is_next = wanted == line + 1 && (acr & PREFETCH) != 0;
    line = wanted;
    if (is_kept) {
        return;
    }
    if (is_next) {
        chip.now = chip.now < next_ready ? next_ready : chip.now;
    } else {
        chip.now += chip.cycle * (acr & LATENCY);
    }
    next_ready = chip.now + chip.cycle * (1 + (acr & LATENCY));
}

void flash_fetch(uint32_t at, uint32_t size) {
    uint64_t first = at >> 4;
    uint64_t last = (at + size - 1) >> 4;
    if (first != line && last != line) {
        take(first);
    }
    if (last != line) {
        take(last);
    }
}
