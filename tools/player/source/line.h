/* The lines of OUT, as docs/OUTPUT.md has them. */
#ifndef LINE_H
#define LINE_H

#include <stdbool.h>
#include <stddef.h>
#include <stdint.h>

#include "cause.h"

enum { LONGEST_LINE = 200, SLOTS = 128, OUTPUTS_ROOM = 64 };

/* All outputs: the spindle (0 stopped, 1 clockwise, 2 counter-clockwise), its speed in millionths, and so on. */
struct outputs {
    unsigned spindle;
    uint64_t speed;
    unsigned mist;
    unsigned flood;
    unsigned selected;
    unsigned slot;
};

struct line {
    char kind;              /* 'P', 'D' or 'S' */
    int step[3];            /* of P: -1, 0 or 1 step of X, Y and Z */
    uint64_t us;            /* of P and D: how long it lasts before the next line */
    struct outputs outputs; /* of S */
};

/* Reads a line without its newline. `least_us` is period_us of the settings: no pulse is shorter. Returns false, with
 * the cause, for a line that isn't exactly one of the three. */
bool line_read(const char *text, size_t size, uint64_t least_us, struct line *line, struct cause *why);

/* Whether a player's clock has room for the time of a line: 73 years. False, with the cause, for a longer one. */
bool line_fits_clock(const struct line *line, struct cause *why);

/* Reads outputs, as "S 0 1000.000000 0 0 0 0". */
bool outputs_read(const char *text, size_t size, struct outputs *outputs);

/* Writes them, and returns how long the text is: less than OUTPUTS_ROOM. */
size_t outputs_print(char *text, size_t room, const struct outputs *outputs);

/* Whether spindle or coolant is on. */
bool outputs_are_on(const struct outputs *outputs);

/* Turns spindle and coolant off. */
void outputs_stop(struct outputs *outputs);

#endif
