#include "backup.h"

#include <string.h>

#include "told.h"

enum { DBP = 0x100, BACKUPS = 10 };

static uint16_t backups[BACKUPS];
static uint32_t pwr_cr;

uint32_t backup_load(uint32_t offset) {
    if (offset < 4 || offset > 4 * BACKUPS) {
        violation("register %02x of BKP isn't modelled", (unsigned)offset);
        return 0;
    }
    return backups[offset / 4 - 1];
}

void backup_store(uint32_t offset, uint32_t value) {
    if ((pwr_cr & DBP) == 0) {
        violation("a store to a backup register while PWR_CR has no DBP");
    } else if (offset < 4 || offset > 4 * BACKUPS || value > 0xffff) {
        violation("register %02x of BKP: %x is reserved, or isn't modelled", (unsigned)offset, (unsigned)value);
    } else {
        backups[offset / 4 - 1] = (uint16_t)value;
    }
}

uint32_t backup_load_power(uint32_t offset) {
    return offset == 0 ? pwr_cr : 0;
}

void backup_store_power(uint32_t offset, uint32_t value) {
    if (offset != 0 || (value & ~(uint32_t)DBP) != 0) {
        violation("PWR's register %02x: %x is reserved, or isn't modelled", (unsigned)offset, (unsigned)value);
    }
    pwr_cr = value & DBP;
}

void backup_reset(void) {
    pwr_cr = 0;
}

void backup_clear(void) {
    memset(backups, 0, sizeof backups);
}

uint16_t backup_first(void) {
    return backups[0];
}

void backup_set_first(uint16_t value) {
    backups[0] = value;
}
