/* The machine's inputs: which of them are on. The machine's file gives each its number. */
#ifndef INPUTS_H
#define INPUTS_H

#include <stdbool.h>
#include <stddef.h>
#include <stdint.h>

#include "cause.h"

enum { MOST_INPUTS = 16, NO_INPUT = -1, INPUTS_ROOM = 256 };

enum axis_end { LOW_END, HIGH_END, AXIS_ENDS };

/* The number of each input, NO_INPUT where there is none. */
struct inputs {
    bool are_there; /* the machine has some */
    int emergency_stop;
    int limits[AXIS_ENDS][3]; /* of X, Y and Z */
    int door;
    int spindle_at_speed;
    int probe;
    uint32_t low;        /* these are on while their pin is low, the others while it is high; bit n is input n */
    int64_t at_speed_ns; /* how long a switch waits for the spindle */
};

/* Whether one of them is among those that are on. */
bool input_is_on(uint32_t on, int input);

/* The bit of an input; 0 where there is none. */
uint32_t input_bit(int input);

/* All limits. */
uint32_t inputs_limits(const struct inputs *inputs);

/* Those that stop the motors at once: the emergency stop and the limits. */
uint32_t inputs_stops(const struct inputs *inputs);

/* Writes the names of those that are on, with a comma between, or `none`. The room is INPUTS_ROOM at least. */
void inputs_print(const struct inputs *inputs, uint32_t on, char *text, size_t room);

/* The name of the limit that is among those that are on, as "X-"; "" unless it is one alone. */
const char *inputs_limit_name(const struct inputs *inputs, uint32_t on);

#endif
