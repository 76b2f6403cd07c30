#include "bus.h"

#include "addresses.h"
#include "chip.h"
#include "clocks.h"
#include "core.h"
#include "dma.h"
#include "nvic.h"
#include "pins.h"
#include "pwm.h"
#include "rom.h"
#include "ssi.h"
#include "told.h"
#include "uart.h"
#include "watchdog.h"

enum { BY_VALUE, BY_TURNING, BY_SETTING, BY_CLEARING };
enum { APB_LOADS = 3, APB_STORES = 4, AHB_TAKES = 1 }; /* cycles, beside the instruction's first */

static uint32_t base_of(uint32_t address) {
    bool is_of_ahb = address >= AT_DMA && address < AT_SIO;
    return is_of_ahb ? address & ~0xfffffu : address < AT_CLOCKS ? address & ~0xffffffu : address & ~0x3fffu;
}

/* What holds for all registers; whether the access has an effect. SIO is at the core, and takes no time. */
static bool reaches(uint32_t address, uint32_t size, bool is_store) {
    uint32_t base = base_of(address);
    bool is_apb = base < AT_DMA && base >= AT_CLOCKS;
    bool is_released = clocks_is_released(base);
    core_pass(base == AT_SIO ? 0 : !is_apb ? AHB_TAKES : is_store ? APB_STORES : APB_LOADS);
    if (!is_released) {
        violation("a %s at %08x, which is held in reset", is_store ? "store" : "load", (unsigned)address);
    }
    if (size != 4) {
        violation("%u bytes of a register at %08x at once", (unsigned)size, (unsigned)address);
    }
    return is_released && size == 4;
}

/* The register's value; false where nothing is there. */
static bool load(uint32_t base, uint32_t offset, uint32_t *value) {
    switch (base) {
    case AT_CLOCKS: case AT_RESETS: case AT_PSM: case AT_XOSC: case AT_PLL_SYS:
        *value = clocks_load(base, offset);
        break;
    case AT_IO_BANK0: case AT_PADS_BANK0: case AT_SIO: *value = pins_load(base, offset); break;
    case AT_UART0: *value = uart_load(offset); dma_look(); break;
    case AT_PWM: *value = pwm_load(offset); break;
    case AT_TIMER: *value = timer_load(offset); break;
    case AT_WATCHDOG: *value = watchdog_load(offset); break;
    case AT_DMA: *value = dma_load(offset); break;
    case AT_SSI: *value = ssi_load(offset); break;
    default:
        violation("a load at %08x: nothing is there, or it isn't modelled", (unsigned)(base | offset));
        return false;
    }
    return true;
}

bool bus_load(uint32_t address, uint32_t size, uint32_t *value) {
    uint32_t base = base_of(address);
    *value = 0;
    if (address < ROM_BYTES) {
        core_pass(1);
        *value = rom_load(address, size);
        return true;
    }
    if (address >= AT_CORE) {
        core_pass(1);
        return nvic_load(address, value);
    }
    return !reaches(address, size, false) || load(base, address & 0xfff, value);
}

static bool store(uint32_t base, uint32_t offset, uint32_t value) {
    switch (base) {
    case AT_CLOCKS: case AT_RESETS: case AT_PSM: case AT_XOSC: case AT_PLL_SYS:
        clocks_store(base, offset, value);
        break;
    case AT_IO_BANK0: case AT_PADS_BANK0: case AT_SIO: pins_store(base, offset, value); break;
    case AT_UART0: uart_store(offset, value); break;
    case AT_PWM: pwm_store(offset, value); break;
    case AT_TIMER: timer_store(offset, value); break;
    case AT_WATCHDOG: watchdog_store(offset, value); break;
    case AT_DMA: dma_store(offset, value); break;
    case AT_SSI: ssi_store(offset, value); break;
    default:
        violation("a store at %08x: nothing is there, or it isn't modelled", (unsigned)(base | offset));
        return false;
    }
    return true;
}

/* A store in one of the other ways: to what stands there, which has to be a register that its loads leave alone. */
static bool store_by(uint32_t how, uint32_t address, uint32_t value) {
    uint32_t base = base_of(address);
    uint32_t offset = address & 0xfff;
    uint32_t was = 0;
    bool has_effect = (base == AT_UART0 && offset == 0) || (base == AT_PWM && offset == 0xa4);
    if (has_effect || base < AT_CLOCKS || !load(base, offset, &was)) {
        violation("a store at %08x isn't modelled", (unsigned)address);
        return false;
    }
    return store(base, offset, how == BY_TURNING ? was ^ value : how == BY_SETTING ? was | value : was & ~value);
}

bool bus_store(uint32_t address, uint32_t size, uint32_t value) {
    uint32_t base = base_of(address);
    uint32_t how = base >= AT_CLOCKS && base < AT_SIO ? address >> 12 & 3 : BY_VALUE;
    if (address >= AT_CORE) {
        core_pass(1);
        return nvic_store(address, size, value);
    }
    if (!reaches(address, size, true)) {
        return true;
    }
    return how == BY_VALUE ? store(base, address & 0xfff, value) : store_by(how, address, value);
}
