/* The ROM: what it does before a program begins, and its functions, each done at once when the core comes to it
 * (datasheet, "Boot sequence" and "Bootrom contents"). */
#include "rom.h"

#include <string.h>

#include "addresses.h"
#include "chip.h"
#include "clocks.h"
#include "code.h"
#include "core.h"
#include "flash.h"
#include "ssi.h"
#include "told.h"

enum { BOOT_BYTES = 252, BOOT_BLOCK = 256, BOOT_AT = 0x20041f00, STARTS_US = 3000 };
enum { AT_TABLE = 0x100, AT_FIND = 0x200, AT_FUNCTIONS = 0x210, FUNCTION_BYTES = 0x10, FUNCTIONS = 6 };
enum { FIND_CYCLES = 60, CALL_CYCLES = 200, ERASE_US = 45000, PROGRAM_US = 700, PAGE = 256 };
enum { CONNECT, LEAVE, ERASE, PROGRAM, FLUSH, ENTER };

static uint32_t cuts; /* after so many more changes of the flash power goes off amid one; 0 for never */
static const char codes[FUNCTIONS][3] = {"IF", "EX", "RE", "RP", "FC", "CX"};

static uint32_t crc32_of(const uint8_t *bytes, uint32_t size) {
    uint32_t crc = 0xffffffff;
    for (uint32_t bit = 0; bit < 8 * size; bit++) {
        uint32_t in = bytes[bit / 8] >> (7 - bit % 8) & 1u;
        crc = (crc >> 31) != in ? crc << 1 ^ 0x04c11db7 : crc << 1;
    }
    return crc;
}

/* It copies the boot block to RAM, and calls it there. */
void part_vectors(uint32_t vectors[2]) {
    uint32_t crc = 0;
    memcpy(&crc, chip.flash + BOOT_BYTES, 4);
    if (crc != crc32_of(chip.flash, BOOT_BYTES)) {
        violation("the boot block has the checksum %08x, and isn't begun: %08x is right", (unsigned)crc,
                  (unsigned)crc32_of(chip.flash, BOOT_BYTES));
    }
    memcpy(chip.ram + (BOOT_AT - RAM_AT), chip.flash, BOOT_BLOCK);
    memset(chip.known + (BOOT_AT - RAM_AT), 1, BOOT_BLOCK);
    code_change(BOOT_AT - RAM_AT, BOOT_BLOCK);
    clocks_release(1u << IN_RESET_IO_QSPI | 1u << IN_RESET_PADS_QSPI);
    chip.now += STARTS_US * UNITS_A_US;
    vectors[0] = BOOT_AT;
    vectors[1] = BOOT_AT | 1;
}

/* A byte of the ROM's head: its mark, its version, the table of functions and who finds them. */
static uint32_t byte_of(uint32_t at) {
    static const uint8_t head[] = {'M', 'u', 1, 3, AT_TABLE & 0xff, AT_TABLE >> 8, 0, 0, (AT_FIND & 0xff) | 1,
                                   AT_FIND >> 8};
    uint32_t entry = (at - AT_TABLE) / 4;
    uint32_t address = AT_FUNCTIONS + entry * FUNCTION_BYTES + 1;
    if (at >= 0x10 && at < 0x10 + sizeof head) {
        return head[at - 0x10];
    }
    if (entry < FUNCTIONS) {
        const uint8_t bytes[4] = {(uint8_t)codes[entry][0], (uint8_t)codes[entry][1], (uint8_t)address,
                                  (uint8_t)(address >> 8)};
        return bytes[at % 4];
    }
    if (entry != FUNCTIONS) { /* which ends the table */
        violation("a load of the ROM at %08x, whose content isn't modelled", (unsigned)at);
    }
    return 0;
}

uint32_t rom_load(uint32_t address, uint32_t size) {
    uint32_t value = 0;
    for (uint32_t at = 0; at < size; at++) {
        value |= byte_of(address + at) << 8 * at;
    }
    return value;
}

static uint32_t find(uint32_t table, uint32_t code) {
    for (uint32_t each = 0; each < FUNCTIONS; each++) {
        if (table == AT_TABLE && code == ((uint32_t)codes[each][0] | (uint32_t)codes[each][1] << 8)) {
            return (AT_FUNCTIONS + each * FUNCTION_BYTES) | 1;
        }
    }
    violation("the ROM's table %x has no function of the code %x, or it isn't modelled", (unsigned)table,
              (unsigned)code);
    return 0;
}

static bool is_in_flash(uint32_t at, uint32_t size, uint32_t unit) {
    bool is = at % unit == 0 && size % unit == 0 && at < FLASH_BYTES && size <= FLASH_BYTES - at;
    if (!is || ssi_is_memory()) {
        violation("the ROM is to change %u bytes of the flash at %08x%s", (unsigned)size, (unsigned)at,
                  is ? ", which is memory still" : "");
    }
    return is && !ssi_is_memory();
}

/* Power goes off in the midst of it, if that is to be: what it makes of each bit is chance. */
static bool is_cut(const uint8_t *was, uint32_t at, uint32_t size) {
    static uint32_t chance = 7;
    if (cuts == 0) {
        return false;
    }
    cuts--;
    for (uint32_t each = 0; cuts == 0 && each < size; each++) {
        chance = chance * 1664525 + 1013904223;
        chip.flash[at + each] = (uint8_t)((was[each] & chance >> 24) | (chip.flash[at + each] & ~(chance >> 24)));
    }
    return cuts == 0;
}

static void change(uint32_t at, const uint8_t *to, uint32_t size, uint32_t takes_us) {
    static uint8_t was[LOG_BYTES];
    memcpy(was, chip.flash + at, size);
    memcpy(chip.flash + at, to, size);
    chip.now += takes_us * UNITS_A_US;
    if (is_cut(was, at, size)) {
        chip_arm(E_CUT, chip.now);
    }
}

static void erase(uint32_t at, uint32_t size) {
    static uint8_t blank[LOG_BYTES];
    memset(blank, 0xff, sizeof blank);
    if (size > LOG_BYTES) {
        violation("the ROM erases %u bytes at once, which isn't modelled", (unsigned)size);
    } else if (is_in_flash(at, size, LOG_SECTOR)) {
        change(at, blank, size, size / LOG_SECTOR * ERASE_US);
    }
}

/* Writing makes zeros. */
static void program(uint32_t at, uint32_t from, uint32_t size) {
    uint32_t in_ram = from - RAM_AT;
    static uint8_t bytes[PAGE];
    if (!is_in_flash(at, size, PAGE) || size != PAGE || in_ram >= RAM_BYTES || size > RAM_BYTES - in_ram) {
        violation("the ROM is to write %u bytes of %08x to the flash", (unsigned)size, (unsigned)from);
        return;
    }
    for (uint32_t each = 0; each < PAGE; each++) {
        bytes[each] = chip.flash[at + each] & chip.ram[in_ram + each];
    }
    change(at, bytes, PAGE, PROGRAM_US);
}

static void call(uint32_t function) {
    core_pass(CALL_CYCLES);
    switch (function) {
    case CONNECT: ssi_connect(); break;
    case LEAVE: ssi_leave_memory(); break;
    case ERASE: erase(core.r[0], core.r[1]); break;
    case PROGRAM: program(core.r[0], core.r[1], core.r[2]); break;
    case FLUSH: ssi_flush(); break;
    default: ssi_enter_memory(); break;
    }
}

/* A function of the ROM is done, and then it returns. */
const struct op *part_code(uint32_t address) {
    static struct op returns;
    returns = decode_register(BX, FLAGS_NO, 0, 0, 14);
    uint32_t function = (address - AT_FUNCTIONS) / FUNCTION_BYTES;
    if (address == AT_FIND) {
        core.r[0] = find(core.r[0], core.r[1]);
        core_pass(FIND_CYCLES);
        return &returns;
    }
    if (address % FUNCTION_BYTES != 0 || address < AT_FUNCTIONS || function >= FUNCTIONS) {
        return NULL;
    }
    call(function);
    return &returns;
}

static uint32_t word_of(uint32_t slot) {
    uint32_t word = 0;
    memcpy(&word, chip.flash + FLASH_BYTES - LOG_BYTES + 4 * slot, 4);
    return word;
}

void rom_cut(uint32_t after) {
    cuts = after;
}

uint16_t log_newest(void) {
    uint32_t newest = 0;
    bool has_one = false;
    for (uint32_t slot = 0; slot < LOG_BYTES / 4; slot++) {
        uint32_t word = word_of(slot);
        bool is_number = (word >> 16) + (word & 0xffff) == 0xffff;
        if (is_number && (!has_one || (uint16_t)(word - newest) < 0x8000)) {
            newest = word;
            has_one = true;
        }
    }
    return (uint16_t)newest;
}

void log_set(uint16_t number) {
    uint32_t word = number | ~(uint32_t)number << 16;
    memset(chip.flash + FLASH_BYTES - LOG_BYTES, 0xff, LOG_BYTES);
    memcpy(chip.flash + FLASH_BYTES - LOG_BYTES, &word, 4);
}
