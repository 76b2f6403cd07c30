/* How a machine moves: what its motors allow, how many lines a player wants in hand, how long its spindle takes, how
 * much its screws have of backlash, which inputs it has, and how it is homed. */
#ifndef MACHINE_H
#define MACHINE_H

#include <stdbool.h>
#include <stdint.h>

#include "cause.h"
#include "home.h"
#include "inputs.h"
#include "pace.h"

enum { SINK_LINE_ROOM = 256 };

/* Where the step sink is. */
struct sink_settings {
    char line[SINK_LINE_ROOM]; /* the path of its serial line; "" where there is no sink */
    int baud;
    int debounce_us; /* how long an input has to be on that stops the motors dead */
};

struct machine {
    struct pace_limits limits;
    uint64_t window_lines; /* how many lines a player wants in hand; 0 for as many as are needed */
    int64_t spindle_ns;    /* how long the spindle takes to start, to stop or to turn the other way */
    uint64_t most_speed;   /* of the spindle, in millionths; 0 where the file doesn't say it */
    int64_t backlash[3];   /* in steps */
    struct sink_settings sink;
    struct inputs inputs;
    struct home home;
};

/* Reads a machine's file. What [motion] has in millimetres it turns into steps, rounded down, so that nothing is
 * exceeded. Returns false, with the cause, which names the table or the key. */
bool machine_read(const char *path, const int64_t step_nm[3], struct machine *machine, struct cause *why);

#endif
