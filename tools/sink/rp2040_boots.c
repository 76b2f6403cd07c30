/* The numbers of the boots are a log of two sectors, by turns: each boot writes a word with its number and, above that,
 * the number's complement. What power cut short isn't such a word, as erasing makes ones, and writing zeros, and each
 * word has sixteen of either. A sector is erased once the other is full. The flash is written by the chip's ROM
 * (datasheet, "Bootrom contents"). */
#include "rp2040_boots.h"

#include <stdbool.h>

enum {
    SLOTS = 2 * BOOT_SECTOR / 4,
    SLOTS_OF_SECTOR = BOOT_SECTOR / 4,
    FLASH_AT = 0x10000000,
    BLANK = -1,
    BLOCK = 65536,      /* bytes that one command erases, .. */
    ERASES_BLOCK = 0xd8 /* .. and that command: for sectors the ROM has its own */
};

/* What the linker places: the ROM's table of pointers to functions, and the log. */
extern const volatile uint16_t rom_table[];
extern const volatile uint32_t boot_log[];

typedef void call(void);
typedef void erase(uint32_t at, uint32_t size, uint32_t block, uint8_t command);
typedef void program(uint32_t at, const uint8_t *bytes, uint32_t size);
typedef void *find(uint32_t table, uint32_t code);

static uint8_t page[BOOT_PAGE];

/* A function of the ROM by its code of two letters. */
static void *rom(char first, char second) {
    find *finds = (find *)(uintptr_t)rom_table[2];
    return finds(rom_table[0], (uint32_t)first | (uint32_t)second << 8);
}

static uint32_t offset_of(uint32_t slot) {
    return (uint32_t)(uintptr_t)&boot_log[slot] - FLASH_AT;
}

/* Before the flash is written it isn't memory any more, and afterwards it is again. */
static void leave_memory(void) {
    ((call *)rom('I', 'F'))();
    ((call *)rom('E', 'X'))();
}

static void come_back(void) {
    ((call *)rom('F', 'C'))();
    ((call *)rom('C', 'X'))();
}

static void erase_sector(uint32_t slot) {
    erase *erases = (erase *)rom('R', 'E');
    leave_memory();
    erases(offset_of(slot), BOOT_SECTOR, BLOCK, ERASES_BLOCK);
    come_back();
}

/* Writes one slot; the other bytes of its page are ones, which leave what is there. */
static void write_slot(uint32_t slot, uint32_t word) {
    program *programs = (program *)rom('R', 'P');
    uint32_t at = offset_of(slot) % BOOT_PAGE;
    for (uint32_t each = 0; each < BOOT_PAGE; each++) {
        page[each] = each - at < 4 ? (uint8_t)(word >> 8 * (each - at)) : 0xff;
    }
    leave_memory();
    programs(offset_of(slot) - at, page, BOOT_PAGE);
    come_back();
}

static bool is_number(uint32_t word) {
    return ((word >> 16) ^ (word & 0xffff)) == 0xffff;
}

/* The slot of the newest number, the last one where there is none. */
static uint32_t newest_slot(void) {
    uint32_t newest = SLOTS;
    for (uint32_t slot = 0; slot < SLOTS; slot++) {
        bool is_newer = newest == SLOTS || (uint16_t)(boot_log[slot] - boot_log[newest]) < 0x8000;
        newest = is_number(boot_log[slot]) && is_newer ? slot : newest;
    }
    return newest < SLOTS ? newest : SLOTS - 1;
}

static bool is_blank(uint32_t slot) {
    bool is = true;
    for (uint32_t each = slot; each < slot + SLOTS_OF_SECTOR && is; each++) {
        is = boot_log[each] == (uint32_t)BLANK;
    }
    return is;
}

uint16_t boots_count(void) {
    uint32_t slot = newest_slot();
    uint32_t last = is_number(boot_log[slot]) ? boot_log[slot] & 0xffff : 0;
    uint32_t word = ((last + 1) & 0xffff) | (~(last + 1) << 16);
    do {
        slot = (slot + 1) % SLOTS;
        if (slot % SLOTS_OF_SECTOR == 0 && !is_blank(slot)) {
            erase_sector(slot);
        }
        if (boot_log[slot] == (uint32_t)BLANK) {
            write_slot(slot, word);
        }
    } while (boot_log[slot] != word);
    return (uint16_t)word;
}
