/* Holds the core against Unicorn (QEMU's cores): runs a firmware in the model, and each instruction of it again in
 * Unicorn, from the same registers, flags, memory and values of peripherals. All registers, flags and stores have to be
 * the same after it.
 *
 *     check_core ELF INSTRUCTIONS [FRAMES]
 *
 * FRAMES is a file of bytes that are sent over the line from the 100th millisecond on, round and round. The status is 1
 * where something differs. Exceptions, which Unicorn doesn't enter here, aren't compared. */
#include <inttypes.h>
#include <stdio.h>
#include <stdlib.h>
#include <string.h>
#include <unicorn/unicorn.h>

#include "chip.h"
#include "core.h"
#include "memory.h"
#include "model.h"
#include "serial.h"
#include "told.h"

enum { ACCESSES = 64, REGISTERS = 17, PC = 15, STATUS = 16, TOLD = 20 };
enum { FLAGS = 0xff00fc00u, IN_IT = 0x0600fc00, EXCEPTION = 0x1ff };

/* Where peripherals and the core's registers are. */
#ifndef REGIONS
#define REGIONS {0x40000000, PERIPHERALS_BYTES}
#endif
static const struct { uint32_t at, bytes; } regions[] = {REGIONS, {0xe0000000, 0x100000}};

static struct { uint32_t address, width, value, before; bool is_store; } accesses[ACCESSES];
static int count, used;
static uint64_t wrong, checked, in_handlers;
static uc_engine *uc;
static uint8_t is_seen[FLASH_BYTES + RAM_BYTES];
static const int names[REGISTERS] = {
    UC_ARM_REG_R0, UC_ARM_REG_R1, UC_ARM_REG_R2, UC_ARM_REG_R3, UC_ARM_REG_R4, UC_ARM_REG_R5,
    UC_ARM_REG_R6, UC_ARM_REG_R7, UC_ARM_REG_R8, UC_ARM_REG_R9, UC_ARM_REG_R10, UC_ARM_REG_R11,
    UC_ARM_REG_R12, UC_ARM_REG_SP, UC_ARM_REG_LR, UC_ARM_REG_PC, UC_ARM_REG_XPSR};

static bool is_ram(uint32_t address) {
    return address - RAM_AT < RAM_BYTES;
}

/* Notes an access of the model, and what a store writes over. */
static void note(uint32_t address, uint32_t width, bool is_store, uint32_t value) {
    if (count == ACCESSES) {
        return;
    }
    accesses[count].address = address;
    accesses[count].width = width;
    accesses[count].is_store = is_store;
    accesses[count].value = value & (uint32_t)((UINT64_C(1) << 8 * width) - 1);
    accesses[count].before = 0;
    if (is_store && is_ram(address)) {
        memcpy(&accesses[count].before, chip.ram + (address - RAM_AT), width);
    }
    count++;
}

static void complain(const char *what, uint32_t at, uint32_t mine, uint32_t others) {
    wrong++;
    if (wrong < TOLD) {
        printf("%08x: %s: %08x, and Unicorn has %08x\n", (unsigned)at, what, (unsigned)mine, (unsigned)others);
    }
}

/* The next access beside the RAM, which Unicorn has to make too; -1 where it is another one. */
static int next_access(uint32_t address, uint32_t width, bool is_store) {
    while (used < count && (accesses[used].is_store != is_store || is_ram(accesses[used].address))) {
        used++;
    }
    bool is_same = used < count && accesses[used].address == address && accesses[used].width == width;
    if (!is_same) {
        complain(is_store ? "a store that isn't the model's" : "a load that isn't the model's", address, 0, 0);
        return -1;
    }
    used++;
    return used - 1;
}

static uint64_t on_load(uc_engine *engine, uint64_t offset, unsigned size, void *base) {
    (void)engine;
    int at = next_access((uint32_t)(offset + (uintptr_t)base), size, false);
    return at < 0 ? 0 : accesses[at].value;
}

static void on_store(uc_engine *engine, uint64_t offset, unsigned size, uint64_t value, void *base) {
    (void)engine;
    uint32_t address = (uint32_t)(offset + (uintptr_t)base);
    int at = next_access(address, size, true);
    if (at >= 0 && accesses[at].value != (uint32_t)value) {
        complain("a store", address, accesses[at].value, (uint32_t)value);
    }
}

static void need(uc_err error, const char *what) {
    if (error != UC_ERR_OK) {
        printf("check_core: %s: %s\n", what, uc_strerror(error));
        exit(2);
    }
}

/* Takes the model's stores of the RAM back. */
static void undo_stores(void) {
    for (int at = count - 1; at >= 0; at--) {
        if (accesses[at].is_store && is_ram(accesses[at].address)) {
            memcpy(chip.ram + (accesses[at].address - RAM_AT), &accesses[at].before, accesses[at].width);
        }
    }
}

/* Unicorn has to have stored the same in the RAM. */
static void compare_stores(void) {
    for (int at = 0; at < count; at++) {
        uint32_t value = 0;
        void *place = chip.ram + (accesses[at].address - RAM_AT);
        if (!accesses[at].is_store || !is_ram(accesses[at].address)) {
            continue;
        }
        memcpy(&value, place, accesses[at].width);
        if (value != accesses[at].value) {
            complain("a store", accesses[at].address, accesses[at].value, value);
            memcpy(place, &accesses[at].value, accesses[at].width);
        }
    }
}

static void compare_registers(uint32_t at) {
    for (int each = 0; each < REGISTERS; each++) {
        uint32_t mask = each == PC ? ~1u : each == STATUS ? FLAGS : ~0u;
        uint32_t mine = each == STATUS ? core_status() : core.r[each];
        uint32_t value = 0;
        char what[16];
        need(uc_reg_read(uc, names[each], &value), "a register");
        if ((value & mask) != (mine & mask)) {
            snprintf(what, sizeof what, each == STATUS ? "xPSR" : "r%d", each);
            complain(what, at, mine, value);
        }
    }
}

/* The same instruction in Unicorn. */
static void do_again(uint32_t before[REGISTERS]) {
    before[STATUS] &= ~(uint32_t)EXCEPTION; /* Unicorn returns from an exception in a handler alone */
    undo_stores();
    used = 0;
    for (int each = 0; each < REGISTERS; each++) {
        if (each != PC) {
            need(uc_reg_write(uc, names[each], &before[each]), "a register");
        }
    }
    need(uc_emu_start(uc, before[PC] | 1, 0, 0, 1), "an instruction");
    compare_registers(before[PC]);
    compare_stores();
}

/* Runs one instruction, with those that an IT has behind it: Unicorn runs them at once. False where it wasn't one
 * alone, as an exception came. */
static bool run_one(uint32_t before[REGISTERS]) {
    bool is_one = true;
    memcpy(before, core.r, sizeof core.r);
    before[STATUS] = core_status();
    count = 0;
    do {
        uint64_t was = core.count;
        core_one();
        is_one = core.count == was + 1 && (core_status() & EXCEPTION) == (before[STATUS] & EXCEPTION);
    } while (is_one && core.it != 0);
    return is_one && (before[STATUS] & IN_IT) == 0 && count < ACCESSES;
}

static void open_unicorn(void) {
    need(uc_open(UC_ARCH_ARM, UC_MODE_THUMB | UC_MODE_MCLASS, &uc), "Unicorn");
    need(uc_ctl_set_cpu_model(uc, UNICORN_CORE), "the core");
    need(uc_mem_map_ptr(uc, FLASH_AT, FLASH_BYTES, UC_PROT_READ | UC_PROT_EXEC, chip.flash), "the flash");
    need(uc_mem_map_ptr(uc, RAM_AT, RAM_BYTES, UC_PROT_ALL, chip.ram), "the RAM");
    for (size_t each = 0; each < sizeof regions / sizeof regions[0]; each++) {
        void *base = (void *)(uintptr_t)regions[each].at;
        need(uc_mmio_map(uc, regions[each].at, regions[each].bytes, on_load, base, on_store, base), "peripherals");
    }
}

/* A place of code that Unicorn has too, as a number; one beyond all where it hasn't, as in a ROM. It can't go there. */
static uint32_t place_of(uint32_t address) {
    return address - FLASH_AT < FLASH_BYTES ? address - FLASH_AT
        : is_ram(address) ? FLASH_BYTES + (address - RAM_AT) : sizeof is_seen;
}

static void check(uint64_t instructions, const uint8_t *frames, size_t size) {
    uint64_t from = 100000 * UNITS_A_US;
    while (core.count < instructions && !chip.is_stopped) {
        uint32_t before[REGISTERS];
        if (size > 0 && chip.now >= from && serial_sending() == 0) {
            serial_send(frames, size);
        }
        if (run_one(before) && place_of(before[PC]) < sizeof is_seen && place_of(core.r[PC]) < sizeof is_seen) {
            in_handlers += (before[STATUS] & EXCEPTION) != 0;
            is_seen[place_of(before[PC])] = 1;
            checked++;
            do_again(before);
        }
        if (chip.now >= chip.next_event) {
            chip_events();
        }
    }
}

int main(int words, char **word) {
    static uint8_t frames[SERIAL_BYTES / 2];
    uint64_t places = 0;
    if (words < 3 || !model_load(word[1])) {
        printf("check_core ELF INSTRUCTIONS [FRAMES]\n");
        return 2;
    }
    FILE *from = words > 3 ? fopen(word[3], "rb") : NULL;
    size_t size = from != NULL ? fread(frames, 1, sizeof frames, from) : 0;
    model_power_on();
    open_unicorn();
    memory_watch = note;
    check(strtoull(word[2], NULL, 10), frames, size);
    for (uint32_t at = 0; at < sizeof is_seen; at++) {
        places += is_seen[at];
    }
    printf("%" PRIu64 " instructions at %" PRIu64 " places, %" PRIu64 " in handlers: %" PRIu64 " differ; %s\n", checked,
           places, in_handlers, wrong, chip.is_stopped ? told_violation() : "no violation");
    return wrong != 0 || chip.is_stopped || checked == 0;
}
