/* Whether motors can follow lines at the times that a pacer gave them: judged by docs/MOTION.md and docs/OUTPUT.md, of
 * the steps and their times alone. It knows no pacer. A second is the unit of time, but where a name says otherwise. */
#ifndef JUDGE_H
#define JUDGE_H

#include <stdbool.h>
#include <stddef.h>
#include <stdint.h>

/* What the motors allow, by axes: the keys of [motion], in steps. */
struct motors {
    double accel[3];
    double rate[3];  /* 0 for as many as are asked for */
    double start[3]; /* at which a motor starts and stops at once */
    double slack;
    double most_percent;
};

/* What was asked for right before a line, besides OUT. */
enum asked {
    NOTHING,
    HOLD, /* it may have stood here for a while */
    END,  /* no more lines were known to come: it came to rest, and began anew */
};

/* Behind the last line of an array is one of kind 0, due where the last is over. */
struct timed_line {
    char kind;       /* 'P', 'D' or 'S' */
    int step[3];     /* of P */
    uint64_t us;     /* of P and D */
    uint64_t due_ns; /* by the pacer */
    enum asked asked;
};

/* What is wrong with a line; `what` is NULL where nothing is. */
struct verdict {
    const char *what;
    size_t line;
    double is;
    double most;
};

/* None is sooner than OUT says, at `most_percent` of its rates; a dwell isn't cut short. */
struct verdict judge_least_times(const struct timed_line *lines, const struct motors *motors);

/* Along each chord no axis gains or loses more speed than its acceleration, from rest and to rest too, and none is
 * above its rate. */
struct verdict judge_rates(const struct timed_line *lines, const struct motors *motors);

/* Each axis has a motion within its acceleration that is never farther from its pulses than the slack allows, and that
 * stands before each dwell and switch, and at the end. */
struct verdict judge_motion(const struct timed_line *lines, const struct motors *motors);

/* All of these. */
struct verdict judge(const struct timed_line *lines, const struct motors *motors);

/* From that line to the next. */
static inline double seconds_of(const struct timed_line *lines, size_t first, size_t count) {
    return (double)(lines[first + count].due_ns - lines[first].due_ns) / 1e9;
}

static inline struct verdict right(void) {
    return (struct verdict){NULL, 0, 0, 0};
}

/* Wrong where `is` is more than `most`. */
static inline struct verdict at_most(const char *what, size_t line, double is, double most) {
    return is <= most ? right() : (struct verdict){what, line, is, most};
}

#endif
