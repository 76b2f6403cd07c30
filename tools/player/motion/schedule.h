/* When each line is due. */
#ifndef SCHEDULE_H
#define SCHEDULE_H

#include <stdbool.h>
#include <stdint.h>

/* 73 years: a line that is longer is refused where times are kept (line_fits_clock). An override makes no pulse longer:
 * at the least of the pacer's rates it lasts 512 s, and one that OUT has slower keeps its own time. */
#define SCHEDULE_MOST_NS (INT64_MAX / 4)

/* In nanoseconds of the monotonic clock; of a play without times, from its start. */
struct schedule {
    bool is_timed;
    bool makes_up;  /* for lateness of less than a tenth of a line's time; where there are ramps all lines move */
    int64_t begun;  /* when the first line was due */
    int64_t due;    /* when the next line is due */
    int64_t latest; /* how late a line was at most */
    int64_t slower; /* how much all took longer */
};

int64_t schedule_now(void);

/* The first line is due now. */
void schedule_start(struct schedule *schedule, bool is_timed, bool makes_up);

/* Nothing was there to be carried out, or a switch took its time: the next line is due now, if not later. */
void schedule_pause(struct schedule *schedule);

/* A line begins now; the next one is due once it has lasted so many nanoseconds. What a line is late, and isn't made up
 * for, moves all lines after it. So nothing comes sooner after a pulse than nine tenths of its time. */
void schedule_begin(struct schedule *schedule, uint64_t lasts_ns);

#endif
