#include "memory.h"

#include <string.h>

#include "bus.h"
#include "chip.h"
#include "code.h"
#include "core.h"
#include "flash.h"
#include "told.h"

void (*memory_watch)(uint32_t address, uint32_t width, bool is_store, uint32_t value);

static void watch(uint32_t address, uint32_t width, bool is_store, uint32_t value) {
    if (memory_watch != NULL) {
        memory_watch(address, width, is_store, value);
    }
}

static bool is_unaligned(uint32_t address, uint32_t width) {
    return (address & (width - 1)) != 0;
}

static uint32_t load_ram(uint32_t at, uint32_t width) {
    static const uint8_t all[4] = {1, 1, 1, 1};
    uint32_t value = 0;
    core_pass(is_unaligned(at, width) ? 2 : 1);
    if (memcmp(chip.known + at, all, width) != 0) {
        violation("it reads RAM at %08x, which nothing has written", (unsigned)(at + RAM_AT));
    }
    memcpy(&value, chip.ram + at, width);
    return value;
}

static uint32_t load_flash(uint32_t at, uint32_t width) {
    uint32_t value = 0;
    flash_pass_load(at);
    memcpy(&value, chip.flash + at, width);
    return value;
}

/* What is beside RAM and flash has to be aligned. */
static bool is_on_bus(const char *what, uint32_t address, uint32_t width) {
    if (is_unaligned(address, width)) {
        violation("an unaligned %s of %u bytes at %08x, which isn't RAM", what, (unsigned)width, (unsigned)address);
        core_fail();
        return false;
    }
    return true;
}

/* ARMv6-M has no unaligned accesses at all. */
static bool bears(uint32_t address, uint32_t width) {
    if (CORE_V6M && is_unaligned(address, width)) {
        violation("an unaligned access of %u bytes at %08x", (unsigned)width, (unsigned)address);
        core_fail();
        return false;
    }
    return true;
}

uint32_t memory_load(uint32_t address, uint32_t width) {
    uint32_t value = 0;
    uint32_t in_ram = address - RAM_AT;
    uint32_t in_flash = address - ALIAS_AT < FLASH_BYTES ? address - ALIAS_AT : address - FLASH_AT;
    if (!bears(address, width)) {
        return 0;
    }
    if (in_ram < RAM_BYTES && in_ram + width <= RAM_BYTES) {
        return load_ram(in_ram, width);
    }
    if (in_flash < FLASH_BYTES && in_flash + width <= FLASH_BYTES) {
        return load_flash(in_flash, width);
    }
    if (is_on_bus("load", address, width) && !bus_load(address, width, &value)) {
        core_fail();
    }
    watch(address, width, false, value);
    return value;
}

void memory_store(uint32_t address, uint32_t width, uint32_t value) {
    uint32_t in_ram = address - RAM_AT;
    watch(address, width, true, value);
    if (!bears(address, width)) {
        return;
    }
    if (in_ram < RAM_BYTES && in_ram + width <= RAM_BYTES) {
        core_pass(is_unaligned(address, width) ? 2 : 1);
        memset(chip.known + in_ram, 1, width);
        memcpy(chip.ram + in_ram, &value, width);
        code_change(in_ram, width);
    } else if (is_on_bus("store", address, width) && !bus_store(address, width, value)) {
        core_fail();
    }
}
