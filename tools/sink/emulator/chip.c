#include "chip.h"

#include <string.h>

#include "core.h"
#include "model.h"
#include "nvic.h"
#include "serial.h"
#include "told.h"

enum { TURNS = 1024, RESET_US = 20, POWER_ON_US = 2500 };

struct chip chip;
static struct { uint64_t at; int input, is_open; } turns[TURNS];
static uint32_t turns_begin, turns_end;

static void set_next_event(void) {
    uint64_t least = NEVER;
    for (int each = 0; each < EVENTS; each++) {
        least = chip.at[each] < least ? chip.at[each] : least;
    }
    chip.next_event = least;
}

void chip_arm(int event, uint64_t at) {
    chip.at[event] = at;
    set_next_event();
}

static void clear_events(void) {
    for (int event = 0; event < EVENTS; event++) {
        chip.at[event] = event == E_UNTIL || event == E_INPUTS ? chip.at[event] : NEVER;
    }
}

uint64_t chip_ns(uint64_t units) {
    return units / UNITS_A_US * 1000 + units % UNITS_A_US * 1000 / UNITS_A_US;
}

static uint64_t units_of(uint64_t ns) {
    return ns / 1000 * UNITS_A_US + (ns % 1000 * UNITS_A_US + 999) / 1000;
}

__attribute__((weak)) void part_vectors(uint32_t vectors[2]) {
    memcpy(vectors, chip.flash + (chip.program_at - FLASH_AT), 8);
}

__attribute__((weak)) const struct op *part_code(uint32_t address) {
    (void)address;
    return NULL;
}

void chip_reset(enum why why) {
    clear_events();
    nvic_reset();
    part_reset(why);
    serial_reset();
    core_reset();
    chip.is_due = false;
    set_next_event();
}

void chip_restart(enum why why) {
    chip.resets++;
    told_note('R', 0, 0);
    chip_reset(why);
    chip.now += RESET_US * UNITS_A_US;
}

void model_reset(void) {
    chip_restart(BY_PIN);
}

void model_power_on(void) {
    static uint32_t chance = 12345;
    for (uint32_t at = 0; at < RAM_BYTES; at++) {
        chance = chance * 1664525 + 1013904223;
        chip.ram[at] = (uint8_t)(chance >> 24);
    }
    memset(chip.known, 0, sizeof chip.known);
    part_power_on();
    core.least_sp = UINT32_MAX;
    chip_reset(BY_POWER);
    chip.now += POWER_ON_US * UNITS_A_US;
}

void model_power_off(uint64_t ns) {
    part_float();
    told_note('R', 1, 0);
    chip.now += units_of(ns);
    chip.resets++;
    model_power_on();
}

static void turn_contacts(void) {
    while (turns_begin != turns_end && turns[turns_begin % TURNS].at <= chip.now) {
        part_turn_input(turns[turns_begin % TURNS].input, turns[turns_begin % TURNS].is_open != 0);
        turns_begin++;
    }
    chip_arm(E_INPUTS, turns_begin == turns_end ? NEVER : turns[turns_begin % TURNS].at);
}

void model_turn_at(uint64_t ns, int input, int is_open) {
    turns[turns_end % TURNS].at = units_of(ns);
    turns[turns_end % TURNS].input = input;
    turns[turns_end % TURNS].is_open = is_open;
    turns_end++;
    turn_contacts();
}

void model_turn_inputs(uint32_t levels) {
    for (int input = 0; input < MODEL_INPUTS; input++) {
        part_turn_input(input, (levels >> input & 1) != 0);
    }
}

/* Does one thing that is due. */
static void happen(int event) {
    switch (event) {
    case E_HEARD: serial_hear(); break;
    case E_INPUTS: turn_contacts(); break;
    case E_UNTIL: break;
    default: part_happen(event); break;
    }
}

void chip_events(void) {
    for (int event = 0; event < EVENTS; event++) {
        if (chip.at[event] <= chip.now) {
            happen(event);
        }
    }
    set_next_event();
}

uint64_t model_ns(void) {
    return chip_ns(chip.now);
}

bool model_run(uint64_t ns) {
    uint64_t until = units_of(model_ns() + ns);
    chip_arm(E_UNTIL, until);
    while (chip.now < until && !chip.is_stopped) {
        core_run();
        if (chip.now >= chip.next_event) {
            chip_events();
        }
    }
    chip_arm(E_UNTIL, NEVER);
    return !chip.is_stopped;
}

void model_fault(void) {
    bool was_stopped = chip.is_stopped;
    core_enter(CORE_HARDFAULT);
    if (!was_stopped) {
        told_forgive();
    }
    chip.is_stopped = was_stopped;
}

void model_leave_handler(void) {
    while (core.exception != 0 && !chip.is_stopped) {
        core_one();
        if (chip.now >= chip.next_event) {
            chip_events();
        }
    }
}

void model_go_astray(uint32_t address) {
    model_leave_handler();
    core.r[15] = address & ~1u;
}

void model_read(uint32_t address, void *to, uint32_t size) {
    uint32_t at = address - RAM_AT;
    if (at < RAM_BYTES && size <= RAM_BYTES - at) {
        memcpy(to, chip.ram + at, size);
    }
}
