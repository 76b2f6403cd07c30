/* The exports of the proved crate ng_pace_c, which libng_pace_c.a has: a stream of lines at a handle. What each
 * promises stands in crates/ng_pace_c/specs/Calls.antt.
 *
 * What the caller owes, and nothing checks: a handle is one that `ng_pace_make` made; it stays where it is, and nobody
 * else reads or writes it; it goes to one call at a time. No number is required to be anything. The library asks for
 * memory in `ng_pace_begin` alone, by pace_memory.c. */
#ifndef NG_PACE_H
#define NG_PACE_H

#include <stdbool.h>
#include <stddef.h>
#include <stdint.h>

/* What motors allow, by axes. */
struct pace_limits {
    uint64_t accel[3];     /* steps a second, each second: 3 to 1,000,000,000 */
    uint64_t rate[3];      /* steps a second, at most 1,000,000,000; 0 for as many as are asked for */
    uint64_t start[3];     /* steps a second: a rate at which a motor can start and stop at once */
    uint64_t half;         /* most pulses on each side of a corner in which it is taken: at least 1 */
    uint64_t slack;        /* how many steps a motor may be off its pulses: 1 to 1,000 */
    uint64_t most_percent; /* the greatest rate that is wanted, in percent of OUT's: 100 to 200 */
};

/* A line of OUT: its letter, P, D or S; the steps of P, by their signs; the microseconds of P and D. What S sets isn't
 * told, and changes no time. */
struct ng_pace_line {
    uint64_t us;
    uint32_t letter;
    int32_t step[3];
};

/* A line that is given out, if one is. */
struct ng_pace_given {
    uint64_t ns;     /* the next line isn't carried out before so many nanoseconds */
    uint64_t ramp;   /* how much the square may change up to the next line, either way */
    bool is_given;
    bool is_at_rest; /* whether everything stands still before the next line */
};

/* How many bytes a handle takes, aligned to 8. */
size_t ng_pace_size(void);

/* Makes a handle where there is room for it, without a stream. */
void ng_pace_make(void *handle);

/* Begins a stream with room for so many lines, in the place of the one before, whose memory is given back first.
 * Returns 0; or there is no stream, and it says why: 1 an axis has less acceleration than 3, 2 more than
 * 1,000,000,000, 3 a greater rate than that, 4 corners of no pulse, 5 no slack, 6 a slack above 1,000, 7 a percentage
 * that isn't 100 to 200, 8 room for no line, 9 out of memory. */
uint32_t ng_pace_begin(void *handle, struct pace_limits limits, size_t capacity);

/* Whether there is no room for a line. Without a stream there is none. */
bool ng_pace_is_full(void *handle);

/* Takes a line, after all that are known; false, with nothing changed, if there is no room for it. */
bool ng_pace_push(void *handle, struct ng_pace_line line);

/* Nothing more is known to come: all that is known may be given out, and comes to rest at its end. */
void ng_pace_end(void *handle);

/* Whether the limits of a line are final, so that it is given out wherever some motion is wanted. */
bool ng_pace_is_ready(void *handle);

/* The next line, at no more than this square, 0 for a hold. None is given, with nothing changed, if the limits of none
 * are final, or at rest in a hold. */
struct ng_pace_given ng_pace_next(void *handle, uint64_t wanted);

/* The square that is wanted for `ng_pace_next` at so many percent of OUT's rates. */
uint64_t ng_pace_wanted(void *handle, uint64_t percent);

#endif
