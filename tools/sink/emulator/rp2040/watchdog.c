#include "watchdog.h"

#include <string.h>

#include "addresses.h"
#include "chip.h"
#include "clocks.h"
#include "told.h"

enum { SCRATCHES = 8, MOST = 0xffffff, TICK_ON = 1 << 9, TICK_RUNS = 1 << 10, BY_TIMER = 1, BY_FORCE = 2 };
enum { CTRL_ON = 1 << 30, PAUSES = 0x07000000, BY_A_TICK = 2 /* erratum RP2040-E1 */ };
#define CTRL_TRIGGER (1u << 31)
#define RESETS_ALL 0x1fffcu /* of PSM_WDSEL: all but the oscillators */

static struct {
    uint32_t ctrl, load, tick, reason;
    uint32_t scratch[SCRATCHES];
    uint64_t fed_at;
    uint64_t tick_from; /* when TIMER began to count */
} watchdog;
uint64_t watchdog_hunger;

static bool ticks(void) {
    return (watchdog.tick & TICK_ON) != 0 && (watchdog.tick & 0x1ff) != 0 && clocks_ref_hz() != 0;
}

uint64_t watchdog_tick_hz(void) {
    return ticks() ? clocks_ref_hz() / (watchdog.tick & 0x1ff) : 0;
}

static uint64_t tick_units(void) {
    return UNITS_A_SECOND / clocks_ref_hz() * (watchdog.tick & 0x1ff);
}

static void arm(void) {
    bool runs = (watchdog.ctrl & CTRL_ON) != 0 && ticks();
    uint64_t lasts = (watchdog.load + BY_A_TICK - 1) / BY_A_TICK;
    chip_arm(E_WATCHDOG, runs ? watchdog.fed_at + lasts * tick_units() : NEVER);
}

/* What it resets; all but the oscillators, as parts of a chip aren't modelled. Nothing at all is as if it slept. */
void watchdog_bite(void) {
    uint32_t watched = clocks_watched() & RESETS_ALL;
    chip_arm(E_WATCHDOG, NEVER);
    if (watched == RESETS_ALL) {
        watchdog.reason |= BY_TIMER;
        chip_restart(BY_WATCHDOG);
    } else if (watched != 0) {
        violation("a watchdog that resets %x alone isn't modelled", (unsigned)watched);
    }
}

void watchdog_reset(bool is_own) {
    uint32_t reason = is_own ? watchdog.reason : 0;
    uint32_t scratch[SCRATCHES];
    memcpy(scratch, watchdog.scratch, sizeof scratch);
    memset(&watchdog, 0, sizeof watchdog);
    watchdog.ctrl = PAUSES;
    watchdog.reason = reason;
    if (is_own) {
        memcpy(watchdog.scratch, scratch, sizeof scratch);
    }
}

static void feed(uint32_t value) {
    uint64_t hunger = chip.now - watchdog.fed_at;
    if (value > MOST) {
        violation("reserved bits of WATCHDOG_LOAD: %x", (unsigned)value);
    }
    if ((watchdog.ctrl & CTRL_ON) != 0) {
        watchdog_hunger = hunger > watchdog_hunger ? hunger : watchdog_hunger;
    }
    watchdog.load = value;
    watchdog.fed_at = chip.now;
}

static void store_control(uint32_t value) {
    bool starts = (value & ~watchdog.ctrl & CTRL_ON) != 0;
    watchdog.ctrl = value & (CTRL_ON | PAUSES);
    watchdog.fed_at = starts ? chip.now : watchdog.fed_at;
    if ((value & CTRL_TRIGGER) != 0) {
        watchdog.reason |= BY_FORCE;
        watchdog_bite();
    }
}

static void store_tick(uint32_t value) {
    bool ran = ticks();
    watchdog.tick = value & (TICK_ON | 0x1ff);
    if (ticks() && !ran) {
        watchdog.tick_from = chip.now;
    }
    if (watchdog_tick_hz() != 0 && watchdog_tick_hz() != 1000000) {
        violation("the watchdog's tick has %u Hz, not a million", (unsigned)watchdog_tick_hz());
    }
}

void watchdog_store(uint32_t offset, uint32_t value) {
    switch (offset) {
    case 0x00: store_control(value); break;
    case 0x04: feed(value); break;
    case 0x0c: case 0x10: case 0x14: case 0x18: case 0x1c: case 0x20: case 0x24: case 0x28:
        watchdog.scratch[(offset - 0x0c) / 4] = value;
        break;
    case 0x2c: store_tick(value); break;
    default: violation("a store to register %02x of WATCHDOG", (unsigned)offset); break;
    }
    arm();
}

uint32_t watchdog_load(uint32_t offset) {
    switch (offset) {
    case 0x00: return watchdog.ctrl;
    case 0x08: return watchdog.reason;
    case 0x0c: case 0x10: case 0x14: case 0x18: case 0x1c: case 0x20: case 0x24: case 0x28:
        return watchdog.scratch[(offset - 0x0c) / 4];
    case 0x2c: return watchdog.tick | (ticks() ? TICK_RUNS : 0);
    default: violation("register %02x of WATCHDOG isn't modelled", (unsigned)offset); return 0;
    }
}

/* It counts from 0, and its high half is read raw alone. */
uint32_t timer_load(uint32_t offset) {
    uint64_t count = ticks() && clocks_is_released(AT_TIMER) ? (chip.now - watchdog.tick_from) / tick_units() : 0;
    switch (offset) {
    case 0x24: return (uint32_t)(count >> 32);
    case 0x28: return (uint32_t)count;
    default: violation("register %02x of TIMER isn't modelled", (unsigned)offset); return 0;
    }
}

void timer_store(uint32_t offset, uint32_t value) {
    violation("a store of %x to register %02x of TIMER isn't modelled", (unsigned)value, (unsigned)offset);
}
