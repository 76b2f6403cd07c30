/* A model of a chip: what all of them share. The folder of a chip has its part.h, which says what is left out of the
 * model, and a file for each of its parts; part.c has what chip.c asks of it. */
#ifndef CHIP_H
#define CHIP_H

#include <stdbool.h>
#include <stdint.h>

#include "part.h"

/* Of chips whose part.h doesn't say otherwise: their core is of ARMv7-M; code in RAM isn't run. */
#ifndef CORE_V6M
#define CORE_V6M false
#endif
#ifndef RUNS_RAM
#define RUNS_RAM false
#endif

#define UNITS_A_SECOND (UNITS_A_US * 1000000)
#define NEVER UINT64_MAX

struct chip {
    uint8_t flash[FLASH_BYTES];
    uint8_t ram[RAM_BYTES];
    uint8_t known[RAM_BYTES]; /* whether that byte was written since power came on */
    uint64_t now;
    uint64_t next_event;
    uint64_t at[EVENTS];
    uint64_t happened;      /* when what is looked at now was due; 0 for now */
    uint64_t cycle;         /* units of one of the core's clock */
    uint32_t program_at;    /* where a program begins: behind a bootloader, if it leaves room for one */
    bool is_due;            /* an exception may be due */
    bool is_stopped;        /* by a violation */
    uint32_t bss_end;       /* below which the stack must not come */
    uint64_t resets;
};

extern struct chip chip;

/* What the model was told of its surroundings; part.c has how they are at first. */
struct surroundings {
    uint32_t baud;        /* of who is at the other end */
    uint32_t lsi_hz;      /* the watchdog's oscillator */
    uint32_t hse_hz;      /* 0 for a crystal that doesn't start */
    uint32_t hse_us;      /* how long it takes to start */
    bool has_battery;     /* what is backed up outlasts a loss of power */
    bool matches_at_once; /* a compare register that is written while the counter has its value: a match at once */
};

extern struct surroundings around;

/* Sets when an event is, NEVER for not. */
void chip_arm(int event, uint64_t at);

/* Does what is due at this time. */
void chip_events(void);

/* Why it starts again. */
enum why { BY_PIN, BY_POWER, BY_WATCHDOG };

/* Starts again; all but RAM and what is backed up is as new. */
void chip_reset(enum why why);

/* As chip_reset, from the model itself: counted, told, and after some time. */
void chip_restart(enum why why);

/* Nanoseconds since power came on first, of units. */
uint64_t chip_ns(uint64_t units);

/* What a chip's part.c has: its peripherals are as after a reset; power came on, or has never been on; all pins float,
 * as while power is off; an event of its own; an input's contact, by its number, is open or closed to ground; how often
 * it has started by the count that it keeps, and sets that; a figure, UINT64_MAX where it has none of this name; and
 * sets all figures to 0. */
void part_reset(enum why why);
void part_power_on(void);
void part_clear(void);
void part_float(void);
void part_happen(int event);
void part_turn_input(int input, bool is_open);
uint16_t part_boots(void);
void part_set_boots(uint16_t count);
uint64_t part_figure(const char *name);
void part_clear_figures(void);

/* And what it may have, where the core begins elsewhere than at the flash's begin, or runs code of a ROM: the first two
 * vectors; the instruction at an address that is neither flash nor RAM, NULL for none. */
struct op;
void part_vectors(uint32_t vectors[2]);
const struct op *part_code(uint32_t address);

#endif
