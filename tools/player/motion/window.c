#include "window.h"

#include <string.h>

enum { LATENESS = 50 /* parts of a second in which more comes */, PERCENT_US = 10000 /* of a second */ };

static uint64_t least_of(uint64_t one, uint64_t other) {
    return one < other ? one : other;
}

/* Stops at the end of its range. */
static uint64_t times(uint64_t one, uint64_t other) {
    return other != 0 && one > UINT64_MAX / other ? UINT64_MAX : one * other;
}

static struct window_line *at(struct window *window, uint64_t index) {
    return &window->greatest[index % PACE_ROOM];
}

/* How many lines are wanted in any case: the limits of five times `half` may wait for what comes behind a corner, and
 * what is carried out isn't replaced at once. */
static uint64_t least(const struct window *window) {
    return 5 * window->limits->half + 40;
}

/* The least acceleration of the axes that step in a pulse. */
static uint64_t accel_of(const struct pace_limits *limits, const int step[3]) {
    bool is_still = step[0] == 0 && step[1] == 0 && step[2] == 0;
    uint64_t accel = UINT64_MAX;
    for (int axis = 0; axis < 3; axis++) {
        if (step[axis] != 0 || is_still) {
            accel = least_of(accel, limits->accel[axis]);
        }
    }
    return accel;
}

/* How many lines are wanted for such pulses: a stop from their greatest rate takes v^2 / 2a, to which a fifth is added
 * for a plan that isn't of the last moment. */
static uint64_t lines_for(const struct window *window, const struct line *line) {
    uint64_t rate = PERCENT_US * window->limits->most_percent / (line->us > 0 ? line->us : 1);
    uint64_t stop = 3 * rate * rate / times(5, accel_of(window->limits, line->step));
    return least_of(stop + rate / LATENESS + least(window), WINDOW_MOST);
}

void window_begin(struct window *window, const struct pace_limits *limits, uint64_t fixed) {
    memset(window, 0, sizeof *window);
    window->limits = limits;
    window->fixed = fixed;
}

/* What a pulse wants. As a rule all pulses of a move are the same in this. */
static uint64_t wanted_by(struct window *window, const struct line *line) {
    bool is_same = window->last.us == line->us && memcmp(window->last.step, line->step, sizeof line->step) == 0;
    if (!is_same || window->last_wanted == 0) {
        window->last = *line;
        window->last_wanted = lines_for(window, line);
    }
    return window->last_wanted;
}

void window_take(struct window *window, const struct line *line) {
    if (line->kind == 'P' && window->fixed == 0) {
        uint64_t wanted = wanted_by(window, line);
        while (window->end > window->first && at(window, window->end - 1)->wanted <= wanted) {
            window->end--;
        }
        *at(window, window->end) = (struct window_line){window->known, wanted};
        window->end++;
    }
    window->known++;
}

void window_leave(struct window *window, uint64_t first) {
    while (window->first < window->end && at(window, window->first)->number < first) {
        window->first++;
    }
}

unsigned window_lines(const struct window *window) {
    if (window->fixed != 0) {
        return (unsigned)window->fixed;
    }
    bool is_any = window->first < window->end;
    return (unsigned)(is_any ? window->greatest[window->first % PACE_ROOM].wanted : least(window));
}
