/* Ramps: lines of OUT go in, in order, and come out in that order with the time of each, so that no axis gains or loses
 * more speed than its motor can. No line is shorter than OUT says, at `most_percent` of its rates. All of this the
 * proved crate ng_pace does (ng_pace.h); what is kept here is how many lines went in and out.
 *
 * A square is that of a rate in pulses a second times 2^8. Nothing is allocated: pace_memory.c. */
#ifndef PACE_H
#define PACE_H

#include <stdbool.h>
#include <stdint.h>

#include "line.h"
#include "ng_pace.h"

enum {
    PACE_ROOM = 8192, /* lines that may be known; a power of two */
    PACE_BYTES = 512  /* a handle takes no more */
};

/* A pacer, all 0 before it is begun for the first time. It stays where it is. One that is plain makes no ramps: it has
 * room for one line, which lasts as long as OUT says. */
struct pace {
    uint64_t first;  /* the next line to be given, counted from 0 .. */
    uint64_t known;  /* .. and the first that isn't known */
    uint64_t ramp;   /* how much the square may change behind the line that was given last .. */
    bool is_at_rest; /* .. and whether everything stands still there */
    bool is_made;    /* the handle is */
    bool is_plain;
    uint64_t plain_ns; /* of its line */
    _Alignas(16) unsigned char handle[PACE_BYTES];
};

/* At rest, with no line. The limits are in the ranges that pace_limits has, as those that `machine_read` gives: with
 * others the program ends, and says so. Without limits, NULL, it is plain. */
void pace_begin(struct pace *pace, const struct pace_limits *limits);

/* Whether there is no room for a line. */
bool pace_is_full(struct pace *pace);

/* Takes a line, after all that are known. It isn't full. */
void pace_push(struct pace *pace, const struct line *line);

/* Nothing more is known to come: all that is known may be given out, and comes to rest at its end. */
void pace_end(struct pace *pace);

/* Whether the limits of a line are final, so that `pace_next` gives one wherever some motion is wanted. */
bool pace_is_ready(struct pace *pace);

/* Gives out the first line: it is carried out now, and the next one no sooner than `ns` nanoseconds later. `wanted` is
 * the greatest square that is wanted; 0 is a hold. False, with nothing changed, at rest in a hold, and if no line's
 * limits are final. */
bool pace_next(struct pace *pace, uint64_t wanted, uint64_t *ns);

/* The square that is wanted for `pace_next` at so many percent, 1 to `most_percent`, of OUT's rates. */
uint64_t pace_wanted(struct pace *pace, unsigned percent);

#endif
