/* What the model asks of this chip (chip.h). */
#include <string.h>

#include "board.h"
#include "chip.h"
#include "clocks.h"
#include "dma.h"
#include "model.h"
#include "pins.h"
#include "pwm.h"
#include "rom.h"
#include "ssi.h"
#include "uart.h"
#include "watchdog.h"

enum { OFF_NS = 50000000 /* for which power is off that is cut amid a change of the flash */ };
enum { SLICE_OF_STEPS = 7, SLICE_OF_SPINDLE = 5 };

/* `lsi_hz` is the ring oscillator's here. */
struct surroundings around = {.baud = 2000000, .lsi_hz = 6500000, .hse_hz = 12000000, .hse_us = 2000,
                              .has_battery = true};

void part_reset(enum why why) {
    clocks_reset(why == BY_WATCHDOG);
    pins_reset();
    dma_reset();
    uart_reset();
    pwm_reset();
    watchdog_reset(why == BY_WATCHDOG);
    ssi_reset();
}

void part_power_on(void) {
}

/* The flash keeps what is in it; a firmware that was just loaded finds no log of boots. */
void part_clear(void) {
    pins_reset();
}

void part_float(void) {
    pins_reset();
}

void part_happen(int event) {
    switch (event) {
    case E_PWM: pwm_happen(); break;
    case E_SENT: uart_shift(); break;
    case E_RECEIVED: uart_receive(); break;
    case E_DMA: dma_move(); break;
    case E_WATCHDOG: watchdog_bite(); break;
    case E_CRYSTAL: chip_arm(event, NEVER); clocks_crystal_starts(); break;
    case E_CUT: model_power_off(OFF_NS); break;
    case E_PLL: chip_arm(event, NEVER); clocks_pll_locks(); break;
    default: break;
    }
}

void part_turn_input(int input, bool is_open) {
    pins_turn(board->inputs[input].number, is_open);
}

uint16_t part_boots(void) {
    return log_newest();
}

void part_set_boots(uint16_t count) {
    log_set(count);
}

uint64_t part_figure(const char *name) {
    const struct { const char *name; uint64_t value; } figures[] = {
        {"hunger_us", watchdog_hunger / UNITS_A_US},
        {"overruns", uart_figures.overruns},
        {"framing", uart_figures.framing},
        {"sys_hz", clocks_sys_hz()},
        {"ref_hz", clocks_ref_hz()},
        {"us_hz", watchdog_tick_hz()},
        {"baud", uart_baud()},
        {"pwm_hz", pwm_turn_hz(SLICE_OF_SPINDLE)},
        {"tick_hz", pwm_tick_hz(SLICE_OF_STEPS)}};
    for (size_t each = 0; each < sizeof figures / sizeof figures[0]; each++) {
        if (strcmp(name, figures[each].name) == 0) {
            return figures[each].value;
        }
    }
    return UINT64_MAX;
}

void part_clear_figures(void) {
    memset(&uart_figures, 0, sizeof uart_figures);
    watchdog_hunger = 0;
}
