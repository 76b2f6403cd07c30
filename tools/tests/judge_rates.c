/* Least times, and rates along chords.
 *
 * The mean rate of so many lines is their number by their time. Where a speed changes by no more than `a` a second, the
 * means of two times, one behind the other, differ by no more than `a` times half of both: the time from the middle of
 * one to that of the other. That is asked of one line and the next, of two and two, of four and four, and so on.
 *
 * What is left to rounding: a time is in whole nanoseconds, so a line may be longer by one than what is meant, and the
 * mean of lines at r pulses a second lower by r^2 / 10^9. A rate is in whole parts of 2^8 of a pulse a second, so it is
 * lower by one of them at most; but a line at OUT's own rate lasts OUT's whole microseconds, without such parts, so
 * means may differ by one more. Together: r^2 / 10^9 + 2 / 2^8 pulses a second, 0.41 at 20,000. */
#include <math.h>

#include "judge.h"

/* Pulses along one line. */
struct chord {
    size_t first;
    size_t end;      /* the line behind its last */
    double accel;    /* pulses a second, each second: that of the axis which allows least */
    double rate;     /* likewise, pulses a second */
    double start;    /* likewise */
    double standing; /* likewise, the rate half a step from rest */
};

/* The slopes of lines from a chord's beginning that are within the slack of an axis's pulses. */
struct cone {
    double low;
    double high;
    double place;
};

static double rounding(double rate) {
    return rate * rate / (1e9 - rate) + 2.0 / 256;
}

static bool begins_anew(const struct timed_line *line) {
    return line->kind != 'P' || line->asked == END;
}

/* Takes a step, if the line to where it ends is within the slack of all pulses so far. */
static bool takes(struct cone cones[3], const int step[3], double pulses, double slack) {
    for (int axis = 0; axis < 3; axis++) {
        double slope = (cones[axis].place + step[axis]) / pulses;
        if (slope < cones[axis].low || slope > cones[axis].high) {
            return false;
        }
    }
    for (int axis = 0; axis < 3; axis++) {
        struct cone *cone = &cones[axis];
        cone->place += step[axis];
        cone->low = fmax(cone->low, (cone->place - slack) / pulses);
        cone->high = fmin(cone->high, (cone->place + slack) / pulses);
    }
    return true;
}

static struct chord limited(struct chord chord, const struct cone cones[3], const struct motors *motors) {
    chord.accel = chord.rate = chord.start = chord.standing = INFINITY;
    for (int axis = 0; axis < 3; axis++) {
        double slope = fabs(cones[axis].place) / (double)(chord.end - chord.first);
        if (slope > 0) {
            double rate = motors->rate[axis] > 0 ? motors->rate[axis] : INFINITY;
            double standing = fmax(sqrt(motors->accel[axis]), motors->start[axis]);
            chord.accel = fmin(chord.accel, motors->accel[axis] / slope);
            chord.rate = fmin(chord.rate, rate / slope);
            chord.start = fmin(chord.start, motors->start[axis] / slope);
            chord.standing = fmin(chord.standing, standing / slope);
        }
    }
    return chord;
}

/* The chord that begins with a line: as many as are within the slack of one line. */
static struct chord chord_from(const struct timed_line *lines, size_t first, const struct motors *motors) {
    struct chord chord = {.first = first, .end = first};
    struct cone cones[3] = {{-2, 2, 0}, {-2, 2, 0}, {-2, 2, 0}};
    bool goes_on = true;
    while (goes_on && takes(cones, lines[chord.end].step, (double)(chord.end + 1 - first), motors->slack)) {
        chord.end++;
        goes_on = !begins_anew(&lines[chord.end]);
    }
    return limited(chord, cones, motors);
}

/* What is wrong with so many lines and as many behind them. */
static struct verdict judge_pair(const struct timed_line *lines, size_t at, size_t size, double accel) {
    double before = seconds_of(lines, at, size);
    double after = seconds_of(lines, at + size, size);
    double rates[2] = {(double)size / before, (double)size / after};
    return at_most("along a chord its rates differ by more than the acceleration", at + size,
                   fabs(rates[1] - rates[0]), accel * (before + after) / 2 + rounding(fmax(rates[0], rates[1])));
}

static struct verdict judge_pairs(const struct timed_line *lines, size_t first, size_t end, double accel) {
    struct verdict verdict = right();
    for (size_t size = 1; size <= (end - first) / 2; size *= 2) {
        for (size_t at = first; at + 2 * size <= end && verdict.what == NULL; at++) {
            verdict = judge_pair(lines, at, size, accel);
        }
    }
    return verdict;
}

/* The greatest mean rate of so many pulses behind a rest, or before one: from the rate that a motor has half a step
 * from rest, or at which it starts at once. */
static double greatest_near_rest(const struct chord *chord, double pulses, double beyond) {
    double square = chord->standing * chord->standing + 2 * chord->accel * beyond;
    double mean = (sqrt(square) + sqrt(square + 2 * chord->accel * pulses)) / 2;
    return mean + rounding(mean);
}

static struct verdict judge_from_rest(const struct timed_line *lines, const struct chord *chord, size_t first,
                                      size_t end) {
    struct verdict verdict = right();
    for (size_t size = 1; size <= end - first && verdict.what == NULL; size *= 2) {
        verdict = at_most("from rest it gains too much", first + size, (double)size / seconds_of(lines, first, size),
                          greatest_near_rest(chord, (double)size, 0));
    }
    return verdict;
}

/* `end` is the last pulse before a rest. In a hold the next pulse isn't made, though the motor goes up to it. */
static struct verdict judge_to_rest(const struct timed_line *lines, const struct chord *chord, size_t first,
                                    size_t end) {
    struct verdict verdict = right();
    double beyond = lines[end + 1].asked == HOLD ? 1 : 0;
    for (size_t size = 1; size <= end - first && verdict.what == NULL; size *= 2) {
        verdict = at_most("it doesn't come to rest in time", end, (double)size / seconds_of(lines, end - size, size),
                          greatest_near_rest(chord, (double)size, beyond));
    }
    if (verdict.what == NULL && end > first && lines[end + 1].asked != HOLD) {
        double rate = 1 / seconds_of(lines, end - 1, 1);
        double time = seconds_of(lines, end - 1, 1) / 2 + seconds_of(lines, end, 1);
        verdict = at_most("it isn't given the time to come to rest", end, rate,
                          chord->accel * time + chord->start + rounding(rate));
    }
    return verdict;
}

static struct verdict judge_greatest(const struct timed_line *lines, const struct chord *chord, size_t first,
                                     size_t end) {
    struct verdict verdict = right();
    for (size_t at = first; at < end && verdict.what == NULL; at++) {
        double rate = 1 / seconds_of(lines, at, 1);
        verdict = at_most("an axis is above its rate", at, rate, chord->rate + rounding(rate));
    }
    return verdict;
}

/* Of lines of a chord between which nothing rests. */
static struct verdict judge_stretch(const struct timed_line *lines, const struct chord *chord, size_t first,
                                    size_t end) {
    bool is_from_rest = first == 0 || lines[first - 1].kind != 'P' || lines[first].asked != NOTHING;
    bool is_to_rest = lines[end].kind != 'P' || lines[end].asked != NOTHING;
    size_t moving = is_to_rest ? end - 1 : end;
    struct verdict verdict = judge_greatest(lines, chord, first, end);
    if (verdict.what == NULL) {
        verdict = judge_pairs(lines, first, moving, chord->accel);
    }
    if (verdict.what == NULL && is_from_rest) {
        verdict = judge_from_rest(lines, chord, first, moving);
    }
    if (verdict.what == NULL && is_to_rest) {
        verdict = judge_to_rest(lines, chord, first, moving);
    }
    return verdict;
}

struct verdict judge_rates(const struct timed_line *lines, const struct motors *motors) {
    struct verdict verdict = right();
    struct chord chord = {0};
    size_t end = 0;
    for (size_t first = 0; lines[first].kind != '\0' && verdict.what == NULL; first = end) {
        end = first + 1;
        if (lines[first].kind != 'P') {
            continue;
        }
        if (first >= chord.end) {
            chord = chord_from(lines, first, motors);
        }
        while (end < chord.end && lines[end].asked == NOTHING) {
            end++;
        }
        bool goes_anywhere = isfinite(chord.accel);
        verdict = goes_anywhere ? judge_stretch(lines, &chord, first, end) : right();
    }
    return verdict;
}

struct verdict judge_least_times(const struct timed_line *lines, const struct motors *motors) {
    struct verdict verdict = right();
    for (size_t at = 0; lines[at].kind != '\0' && verdict.what == NULL; at++) {
        double percent = lines[at].kind == 'P' ? motors->most_percent : 100;
        double least_ns = lines[at].kind == 'S' ? 0 : ceil((double)lines[at].us * 100000 / percent);
        double ns = (double)(lines[at + 1].due_ns - lines[at].due_ns);
        verdict = at_most("it is sooner over than OUT says", at, least_ns, ns);
    }
    return verdict;
}
