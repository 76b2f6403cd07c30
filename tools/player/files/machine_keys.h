/* The tables of a machine's file and their keys: what each takes. A table or a key that isn't among them is refused. */
#ifndef MACHINE_KEYS_H
#define MACHINE_KEYS_H

#include <stdbool.h>
#include <stdint.h>

#include "cause.h"
#include "toml.h"

enum { MOTION, WINDOW, WAIT, TURNS, BACKLASH, SINK, INPUTS, HOME, SETTER, TABLES };

enum {
    ACCEL, RATE, START, SLACK, MOST, LINES, SPINDLE, MAX_RPM, STEPS, LINE, BAUD, DEBOUNCE,
    STOP, LIMITS_LOW, LIMITS_HIGH, DOOR, AT_SPEED, PROBE, LOW, AT_SPEED_S,
    ORDER, SWITCH, DIRECTION, FAST, SLOW, PULL_OFF, AT, WAY, AGREE, HEIGHT, OVER,
    PROBE_TOOL, RADIUS, TOUCH_FAST, TOUCH_SLOW, RETRACT, TOUCH_AGREE,
    KEYS
};

/* What a machine's file says. */
struct content {
    bool is_found[TABLES];
    bool is_there[KEYS];
    struct value values[KEYS]; /* each of its key's kind and in its range */
};

/* Reads a file, with all that must be there in it. Returns false, with the cause, which names the table or the key. */
bool machine_keys_read(const char *path, struct content *content, struct cause *why);

/* The first number of a key, or another where it isn't there. */
int64_t number_of(const struct content *content, int key, int64_t otherwise);

#endif
