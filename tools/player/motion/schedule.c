#define _POSIX_C_SOURCE 200809L
#include "schedule.h"

#include <time.h>

/* No line is due later than at twice that. */
static const int64_t most_ns = SCHEDULE_MOST_NS;

int64_t schedule_now(void) {
    struct timespec now;
    clock_gettime(CLOCK_MONOTONIC, &now);
    return (int64_t)now.tv_sec * INT64_C(1000000000) + now.tv_nsec;
}

void schedule_start(struct schedule *schedule, bool is_timed, bool makes_up) {
    schedule->is_timed = is_timed;
    schedule->makes_up = makes_up;
    schedule->begun = is_timed ? schedule_now() : 0;
    schedule->due = schedule->begun;
}

void schedule_pause(struct schedule *schedule) {
    int64_t now = schedule->is_timed ? schedule_now() : 0;
    if (schedule->due < now) {
        schedule->due = now;
    }
}

/* How late a line begins: what of it moves all lines after it. */
static int64_t heed_lateness(struct schedule *schedule, int64_t lasts) {
    int64_t late = schedule_now() - schedule->due;
    int64_t made_up = schedule->makes_up ? lasts / 10 : 0;
    int64_t moved = late > made_up ? late - made_up : 0;
    if (late > schedule->latest) {
        schedule->latest = late;
    }
    schedule->slower += moved;
    return moved;
}

void schedule_begin(struct schedule *schedule, uint64_t lasts_ns) {
    int64_t lasts = lasts_ns < (uint64_t)most_ns ? (int64_t)lasts_ns : most_ns;
    schedule->due += schedule->is_timed ? heed_lateness(schedule, lasts) : 0;
    schedule->due += lasts;
    if (schedule->due > 2 * most_ns) {
        schedule->due = 2 * most_ns;
    }
}
