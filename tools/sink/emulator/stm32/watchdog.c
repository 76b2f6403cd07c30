#include "watchdog.h"

#include <stdbool.h>
#include <string.h>

#include "chip.h"
#include "told.h"

enum { KEY_FEED = 0xaaaa, KEY_OPEN = 0x5555, KEY_START = 0xcccc, MOST = 0xfff, TAKES_CYCLES = 5 };

/* A register that comes into force some cycles of the oscillator later. */
struct late {
    uint32_t value;
    uint32_t now;
    uint64_t at; /* NEVER where it is in force */
};

static struct {
    struct late prescaler, reload;
    bool is_open, is_on;
    uint64_t fed_at;
} iwdg;
uint64_t watchdog_hunger;

static uint64_t oscillator(void) {
    return UNITS_A_SECOND / around.lsi_hz;
}

static void come_into_force(struct late *late) {
    if (late->at <= chip.now) {
        late->now = late->value;
        late->at = NEVER;
    }
}

static void go_on(void) {
    come_into_force(&iwdg.prescaler);
    come_into_force(&iwdg.reload);
}

static void bite_after(uint32_t count) {
    uint32_t power = iwdg.prescaler.now > 6 ? 6 : iwdg.prescaler.now;
    chip_arm(E_WATCHDOG, chip.now + count * (UINT64_C(4) << power) * oscillator());
    iwdg.fed_at = chip.now;
}

static void store_key(uint32_t value) {
    uint64_t hunger = chip.now - iwdg.fed_at;
    iwdg.is_open = value == KEY_OPEN;
    if (value == KEY_START && !iwdg.is_on) {
        iwdg.is_on = true;
        bite_after(MOST);
    } else if (value == KEY_FEED && iwdg.is_on) {
        watchdog_hunger = hunger > watchdog_hunger ? hunger : watchdog_hunger;
        bite_after(iwdg.reload.now);
    } else if (value != KEY_OPEN && value != KEY_FEED && value != KEY_START) {
        violation("IWDG_KR %x", (unsigned)value);
    }
}

static void store_late(struct late *late, const char *name, uint32_t most, uint32_t value) {
    if (!iwdg.is_open) {
        violation("IWDG_%s is written without the key", name);
    } else if (late->at != NEVER) {
        violation("IWDG_%s is written while its last value isn't taken yet", name);
    } else if (value > most) {
        violation("reserved bits of IWDG_%s: %x", name, (unsigned)value);
    } else {
        late->value = value;
        late->at = chip.now + TAKES_CYCLES * oscillator();
    }
}

void watchdog_store(uint32_t offset, uint32_t value) {
    go_on();
    switch (offset) {
    case 0: store_key(value); break;
    case 4: store_late(&iwdg.prescaler, "PR", 7, value); break;
    case 8: store_late(&iwdg.reload, "RLR", MOST, value); break;
    default: violation("a store to register %02x of IWDG", (unsigned)offset); break;
    }
}

uint32_t watchdog_load(uint32_t offset) {
    go_on();
    switch (offset) {
    case 4: return iwdg.prescaler.value;
    case 8: return iwdg.reload.value;
    case 12: return (iwdg.prescaler.at != NEVER ? 1u : 0) | (iwdg.reload.at != NEVER ? 2u : 0);
    default: return 0;
    }
}

void watchdog_reset(void) {
    memset(&iwdg, 0, sizeof iwdg);
    iwdg.reload.value = iwdg.reload.now = MOST;
    iwdg.prescaler.at = iwdg.reload.at = NEVER;
}
