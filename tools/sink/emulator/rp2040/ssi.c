#include "ssi.h"

#include <string.h>

#include "addresses.h"
#include "chip.h"
#include "clocks.h"
#include "core.h"
#include "flash.h"
#include "told.h"

enum { MOST_HZ = 50000000 /* of the command 03h, by the flash's data sheet */, LINE = 8, SETS = 1024, WAYS = 2 };
enum { CLOCKS_A_LINE = 8 + 24 + 64, MORE_CYCLES = 12 /* for the SSI's FIFO and the bus */, ROM_DIVISOR = 6 };
enum { WORDS_BY_COMMAND = 31 << 16 | 3 << 8, READ_COMMAND = 3 << 24 | 2 << 8 | 6 << 2, IN_FLASH = FLASH_AT >> 24 };

static struct {
    uint32_t ctrlr0, ctrlr1, enr, baudr, spi_ctrlr0;
    bool is_connected, is_command; /* as the ROM's functions left it */
    bool is_forced;                /* the flash's chip select, by the pin's override */
} ssi;
static uint32_t tags[SETS][WAYS]; /* of lines, 0 for none; the one that was used last is first */

bool ssi_is_memory(void) {
    return ssi.enr != 0 && !ssi.is_command && ssi.ctrlr0 == WORDS_BY_COMMAND && ssi.ctrlr1 == 0
        && ssi.spi_ctrlr0 == READ_COMMAND && ssi.baudr >= 2 && ssi.baudr % 2 == 0;
}

/* Reads a line of the flash. */
static void miss(uint32_t address) {
    if (!ssi_is_memory()) {
        violation("the flash is read at %08x while it isn't memory", (unsigned)address);
        return;
    }
    if (clocks_sys_hz() / ssi.baudr > MOST_HZ) {
        violation("the flash has a clock of %u Hz, more than 50 MHz", (unsigned)(clocks_sys_hz() / ssi.baudr));
    }
    core_pass(CLOCKS_A_LINE * ssi.baudr + MORE_CYCLES);
}

/* Takes the line of an address. */
static void take(uint32_t address) {
    uint32_t line = address / LINE;
    uint32_t *set = tags[line % SETS];
    if (set[0] == line) {
        return;
    }
    if (set[1] != line) {
        miss(address);
    }
    set[1] = set[0];
    set[0] = line;
}

/* An instruction of 32 bits takes a second load of the core, wherever it is. */
void flash_fetch(uint32_t at, uint32_t size) {
    if (at >> 24 == IN_FLASH) {
        take(at);
        take(at + size - 1);
    }
    core_pass(size == 4);
}

void flash_pass_load(uint32_t offset) {
    core_pass(1);
    take(FLASH_AT + offset);
}

void flash_leave(void) {
}

void flash_reset(void) {
}

void ssi_flush(void) {
    memset(tags, 0, sizeof tags);
    ssi.is_forced = false;
}

void ssi_connect(void) {
    ssi.is_connected = true;
}

void ssi_leave_memory(void) {
    if (!ssi.is_connected) {
        violation("the flash's pins aren't the ROM's");
    }
    ssi.is_command = ssi.is_forced = true;
}

void ssi_enter_memory(void) {
    if (ssi.is_forced) {
        violation("the flash is to be memory while its chip select is forced: the cache wasn't emptied");
    }
    ssi.is_connected = ssi.is_command = false;
    ssi.enr = 1;
    ssi.ctrlr0 = WORDS_BY_COMMAND;
    ssi.ctrlr1 = 0;
    ssi.spi_ctrlr0 = READ_COMMAND;
    ssi.baudr = ROM_DIVISOR;
}

void ssi_reset(void) {
    memset(&ssi, 0, sizeof ssi);
    ssi_flush();
    ssi_enter_memory();
}

uint32_t ssi_load(uint32_t offset) {
    switch (offset) {
    case 0x00: return ssi.ctrlr0;
    case 0x04: return ssi.ctrlr1;
    case 0x08: return ssi.enr;
    case 0x14: return ssi.baudr;
    case 0x28: return 6; /* idle: room to send, nothing to send */
    case 0xf4: return ssi.spi_ctrlr0;
    default: violation("register %02x of the SSI isn't modelled", (unsigned)offset); return 0;
    }
}

/* While it is on its settings stay. */
void ssi_store(uint32_t offset, uint32_t value) {
    uint32_t *const to = offset == 0x00 ? &ssi.ctrlr0 : offset == 0x04 ? &ssi.ctrlr1 : offset == 0x08 ? &ssi.enr
        : offset == 0x14 ? &ssi.baudr : offset == 0xf4 ? &ssi.spi_ctrlr0 : NULL;
    if (to == NULL) {
        violation("register %02x of the SSI isn't modelled", (unsigned)offset);
        return;
    }
    if (offset != 0x08 && ssi.enr != 0) {
        violation("register %02x of the SSI is changed while that is on", (unsigned)offset);
    }
    *to = value;
    if (offset == 0x08 && value == 1 && !ssi_is_memory()) {
        violation("the SSI as it is set isn't modelled: %08x %08x, by %u", (unsigned)ssi.ctrlr0,
                  (unsigned)ssi.spi_ctrlr0, (unsigned)ssi.baudr);
    }
}
