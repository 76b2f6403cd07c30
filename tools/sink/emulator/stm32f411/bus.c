#include "bus.h"

#include "addresses.h"
#include "chip.h"
#include "clocks.h"
#include "dma.h"
#include "line.h"
#include "nvic.h"
#include "pins.h"
#include "power.h"
#include "streams.h"
#include "timers.h"
#include "told.h"
#include "usart.h"
#include "watchdog.h"

static bool is_of_core(uint32_t address) {
    return address >= 0xe0000000 && address < 0xe0100000;
}

static enum bus bus_of(uint32_t address) {
    return address >= AT_AHB1 ? BUS_AHB : address >= AT_APB2 ? BUS_APB2 : BUS_APB1;
}

/* What holds for all peripherals; whether the access has an effect. */
static bool reaches(uint32_t address, uint32_t size, bool is_store) {
    uint32_t base = address & ~0x3ffu;
    bool takes_parts = base == AT_RCC || base == AT_FLASH || (base >= AT_GPIOA && base <= AT_GPIOC);
    bool has_clock = clocks_has(address);
    if (has_clock && !clocks_is_there(address)) {
        violation("an access of %08x just after its clock was switched on", (unsigned)address);
    }
    chip.now += clocks_access_units(bus_of(address));
    if (!has_clock) {
        violation("a %s at %08x, whose clock is off", is_store ? "store" : "load", (unsigned)address);
    }
    if (!takes_parts && size != 4) {
        violation("%u bytes of a register at %08x at once", (unsigned)size, (unsigned)address);
    }
    return has_clock;
}

static bool is_line(uint32_t base) {
    return base == line_of_board()->usart;
}

bool bus_load(uint32_t address, uint32_t size, uint32_t *value) {
    uint32_t base = address & ~0x3ffu;
    uint32_t offset = address & 0x3fc;
    *value = 0;
    if (is_of_core(address)) {
        chip.now += chip.cycle;
        return nvic_load(address, value);
    }
    if (!reaches(address, size, false)) {
        return true;
    }
    if (is_line(base)) {
        *value = usart_load(offset);
        dma_look(DMA_IN);
        return true;
    }
    switch (base) {
    case AT_TIM2: case AT_TIM3: case AT_TIM4: *value = timers_load((int)(base - AT_TIM2) / 0x400, offset); break;
    case AT_RTC: *value = backup_load(offset); break;
    case AT_IWDG: *value = watchdog_load(offset); break;
    case AT_PWR: *value = power_load(offset); break;
    case AT_GPIOA: case AT_GPIOB: case AT_GPIOC: *value = pins_load((int)(base - AT_GPIOA) / 0x400, offset); break;
    case AT_RCC: *value = clocks_load(offset); break;
    case AT_FLASH: *value = clocks_load_flash(offset); break;
    case AT_DMA1: case AT_DMA2: *value = dma_load(base == AT_DMA2, offset); break;
    default:
        violation("a load at %08x: nothing is there, or it isn't modelled", (unsigned)address);
        return false;
    }
    return true;
}

bool bus_store(uint32_t address, uint32_t size, uint32_t value) {
    uint32_t base = address & ~0x3ffu;
    uint32_t offset = address & 0x3fc;
    if (is_of_core(address)) {
        chip.now += chip.cycle;
        return nvic_store(address, size, value);
    }
    if (!reaches(address, size, true)) {
        return true;
    }
    if (is_line(base)) {
        usart_store(offset, value);
        return true;
    }
    switch (base) {
    case AT_TIM2: case AT_TIM3: case AT_TIM4: timers_store((int)(base - AT_TIM2) / 0x400, offset, value); break;
    case AT_RTC: backup_store(offset, value); break;
    case AT_IWDG: watchdog_store(offset, value); break;
    case AT_PWR: power_store(offset, value); break;
    case AT_GPIOA: case AT_GPIOB: case AT_GPIOC: pins_store((int)(base - AT_GPIOA) / 0x400, offset, size, value); break;
    case AT_RCC: clocks_store(offset, value); break;
    case AT_FLASH: clocks_store_flash(offset, value); break;
    case AT_DMA1: case AT_DMA2: dma_store(base == AT_DMA2, offset, value); break;
    default:
        violation("a store at %08x: nothing is there, or it isn't modelled", (unsigned)address);
        return false;
    }
    return true;
}
