/* How many lines a player wants in hand: enough to come to rest from the fastest of them, and no more than that, since
 * what is in hand is lost with the power. tools/ngc_tools/link/window.py has the same integers. */
#ifndef WINDOW_H
#define WINDOW_H

#include "line.h"
#include "pace.h"

enum { WINDOW_MOST = PACE_ROOM - 192 }; /* what a pacer has room for, less a margin */

/* A line that wants more than all after it. */
struct window_line {
    uint64_t number;
    uint64_t wanted;
};

struct window {
    const struct pace_limits *limits;
    uint64_t fixed;       /* how many there are to be, whatever they are; 0 for as many as are needed */
    uint64_t known;       /* the lines so far */
    uint64_t first;       /* of the lines that want more than all after them .. */
    uint64_t end;         /* .. and behind the last */
    struct line last;     /* the last pulse .. */
    uint64_t last_wanted; /* .. and what it wants */
    struct window_line greatest[PACE_ROOM];
};

/* No lines in hand. The limits stay where they are. */
void window_begin(struct window *window, const struct pace_limits *limits, uint64_t fixed);

/* Takes the next line in hand; there are fewer than PACE_ROOM. */
void window_take(struct window *window, const struct line *line);

/* All lines before this one, counted from 0, are carried out. */
void window_leave(struct window *window, uint64_t first);

/* How many lines are wanted in hand, 1 to WINDOW_MOST. */
unsigned window_lines(const struct window *window);

#endif
