#include "bus.h"

#include "addresses.h"
#include "backup.h"
#include "chip.h"
#include "clocks.h"
#include "dma.h"
#include "dma_registers.h"
#include "nvic.h"
#include "pins.h"
#include "timers.h"
#include "told.h"
#include "usart.h"
#include "watchdog.h"

static bool is_of_core(uint32_t address) {
    return address >= 0xe0000000 && address < 0xe0100000;
}

static enum bus bus_of(uint32_t address) {
    return address >= AT_DMA1 ? BUS_AHB : address >= AT_AFIO ? BUS_APB2 : BUS_APB1;
}

/* What holds for all peripherals; whether the access has an effect. */
static bool reaches(uint32_t address, uint32_t size, bool is_store) {
    uint32_t base = address & ~0x3ffu;
    bool takes_parts = base == AT_RCC || base == AT_FLASH;
    bool needs_words = base >= AT_AFIO && base <= AT_GPIOD;
    bool has_clock = clocks_has(address);
    chip.now += clocks_access_units(bus_of(address));
    if (!has_clock) {
        violation("a %s at %08x, whose clock is off", is_store ? "store" : "load", (unsigned)address);
    }
    if (!takes_parts && (size == 1 || (needs_words && size != 4))) {
        violation("%u bytes of a register at %08x at once", (unsigned)size, (unsigned)address);
    }
    return has_clock;
}

bool bus_load(uint32_t address, uint32_t size, uint32_t *value) {
    uint32_t base = address & ~0x3ffu;
    uint32_t offset = address & 0x3fc;
    *value = 0;
    if (is_of_core(address)) {
        chip.now += chip.cycle;
        return nvic_load(address, value);
    }
    if (!reaches(address, size, false)) {
        return true;
    }
    switch (base) {
    case AT_TIM2: case AT_TIM3: case AT_TIM4: *value = timers_load((int)(base - AT_TIM2) / 0x400, offset); break;
    case AT_IWDG: *value = watchdog_load(offset); break;
    case AT_BKP: *value = backup_load(offset); break;
    case AT_PWR: *value = backup_load_power(offset); break;
    case AT_AFIO: *value = pins_load_functions(offset); break;
    case AT_GPIOA: *value = pins_load(PORT_A, offset); break;
    case AT_GPIOB: *value = pins_load(PORT_B, offset); break;
    case AT_USART1: *value = usart_load(offset); dma_look(DMA_IN); break;
    case AT_DMA1: *value = dma_load(offset); break;
    case AT_RCC: *value = clocks_load(offset); break;
    case AT_FLASH: *value = clocks_load_flash(offset); break;
    default:
        violation("a load at %08x: nothing is there, or it isn't modelled", (unsigned)address);
        return false;
    }
    return true;
}

bool bus_store(uint32_t address, uint32_t size, uint32_t value) {
    uint32_t base = address & ~0x3ffu;
    uint32_t offset = address & 0x3fc;
    if (is_of_core(address)) {
        chip.now += chip.cycle;
        return nvic_store(address, size, value);
    }
    if (!reaches(address, size, true)) {
        return true;
    }
    switch (base) {
    case AT_TIM2: case AT_TIM3: case AT_TIM4: timers_store((int)(base - AT_TIM2) / 0x400, offset, value); break;
    case AT_IWDG: watchdog_store(offset, value); break;
    case AT_BKP: backup_store(offset, value); break;
    case AT_PWR: backup_store_power(offset, value); break;
    case AT_AFIO: pins_store_functions(offset, value); break;
    case AT_GPIOA: pins_store(PORT_A, offset, value); break;
    case AT_GPIOB: pins_store(PORT_B, offset, value); break;
    case AT_USART1: usart_store(offset, value); break;
    case AT_DMA1: dma_store(offset, value); break;
    case AT_RCC: clocks_store(offset, value); break;
    case AT_FLASH: clocks_store_flash(offset, value); break;
    default:
        violation("a store at %08x: nothing is there, or it isn't modelled", (unsigned)address);
        return false;
    }
    return true;
}
