/* What the model asks of this chip (chip.h). */
#include <string.h>

#include "board.h"
#include "chip.h"
#include "clocks.h"
#include "dma.h"
#include "flash.h"
#include "pins.h"
#include "power.h"
#include "timers.h"
#include "usart.h"
#include "watchdog.h"

struct surroundings around = {2000000, 32000, 25000000, 2000, true, false};

void part_reset(enum why why) {
    static const uint32_t bits[] = {[BY_PIN] = 0, [BY_POWER] = 1 << 27, [BY_WATCHDOG] = 1 << 29};
    power_reset();
    flash_reset();
    clocks_reset(bits[why]);
    pins_reset();
    dma_reset();
    usart_reset();
    timers_reset();
    watchdog_reset();
}

void part_power_on(void) {
    if (!around.has_battery) {
        backup_clear();
    }
    clocks_power_on();
}

void part_clear(void) {
    backup_clear();
    pins_reset();
}

void part_float(void) {
    pins_reset();
}

void part_happen(int event) {
    switch (event) {
    case E_TIM2: case E_TIM3: case E_TIM4: timers_happen(event - E_TIM2); break;
    case E_SENT: usart_shift(); break;
    case E_RECEIVED: usart_receive(); break;
    case E_DMA_OUT: dma_move(DMA_OUT); break;
    case E_DMA_IN: dma_move(DMA_IN); break;
    case E_WATCHDOG: chip_restart(BY_WATCHDOG); break;
    case E_CRYSTAL: chip_arm(event, NEVER); clocks_crystal_starts(); break;
    case E_PLL: chip_arm(event, NEVER); clocks_pll_locks(); break;
    default: break;
    }
}

void part_turn_input(int input, bool is_open) {
    struct pin pin = board->inputs[input];
    pins_turn(pin.port - 'A', pin.number, is_open);
}

uint16_t part_boots(void) {
    return (uint16_t)backup_first();
}

void part_set_boots(uint16_t count) {
    backup_set_first(count);
}

uint64_t part_figure(const char *name) {
    const struct { const char *name; uint64_t value; } figures[] = {
        {"hunger_us", watchdog_hunger / UNITS_A_US},
        {"overruns", usart_figures.overruns},
        {"framing", usart_figures.framing},
        {"hclk_hz", clocks_hclk_hz()},
        {"apb1_hz", clocks_bus_hz(BUS_APB1)},
        {"baud", usart_baud()},
        {"pwm_hz", timers_pwm_hz()},
        {"tick_hz", timers_tick_hz(0)}};
    for (size_t each = 0; each < sizeof figures / sizeof figures[0]; each++) {
        if (strcmp(name, figures[each].name) == 0) {
            return figures[each].value;
        }
    }
    return UINT64_MAX;
}

void part_clear_figures(void) {
    memset(&usart_figures, 0, sizeof usart_figures);
    watchdog_hunger = 0;
}
