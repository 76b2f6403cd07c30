#include "power.h"

#include <string.h>

#include "clocks.h"
#include "told.h"

enum { DBP = 0x100, VOS_AT = 14, CR_RESET = 0x8000, CR_BITS = 0xc100, VOSRDY = 1 << 14 };
enum { BACKUPS = 20, BACKUPS_AT = 0x50 };

static uint32_t cr;
static uint32_t backups[BACKUPS];

/* Without the PLL it is scale 3 always. */
uint32_t power_scale(void) {
    return clocks_pll_is_on() ? cr >> VOS_AT & 3 : 1;
}

uint32_t power_load(uint32_t offset) {
    switch (offset) {
    case 0: return cr;
    case 4: return clocks_pll_is_on() ? VOSRDY : 0;
    default: violation("register %02x of PWR isn't modelled", (unsigned)offset); return 0;
    }
}

void power_store(uint32_t offset, uint32_t value) {
    if (offset != 0 || (value & ~(uint32_t)CR_BITS) != 0 || (value >> VOS_AT & 3) == 0) {
        violation("PWR's register %02x: %x is reserved, or isn't modelled", (unsigned)offset, (unsigned)value);
        return;
    }
    if (clocks_pll_is_on() && ((value ^ cr) >> VOS_AT) != 0) {
        violation("the core's voltage is set while the PLL is on");
    }
    cr = value;
}

void power_reset(void) {
    cr = CR_RESET;
}

uint32_t backup_load(uint32_t offset) {
    if (offset < BACKUPS_AT || offset >= BACKUPS_AT + 4 * BACKUPS) {
        violation("register %02x of the RTC isn't modelled", (unsigned)offset);
        return 0;
    }
    return backups[(offset - BACKUPS_AT) / 4];
}

void backup_store(uint32_t offset, uint32_t value) {
    if ((cr & DBP) == 0) {
        violation("a store to a backup register while PWR_CR has no DBP");
    } else if (offset < BACKUPS_AT || offset >= BACKUPS_AT + 4 * BACKUPS) {
        violation("register %02x of the RTC isn't modelled", (unsigned)offset);
    } else {
        backups[(offset - BACKUPS_AT) / 4] = value;
    }
}

void backup_clear(void) {
    memset(backups, 0, sizeof backups);
}

uint32_t backup_first(void) {
    return backups[0];
}

void backup_set_first(uint32_t value) {
    backups[0] = value;
}
