/* Whether a motion exists.
 *
 * Of an axis all places and rates that a motor may have reached are kept, as a convex polygon: from each of them any
 * constant acceleration is taken for a short time, and what is too far from the pulses then is cut off. Where nothing
 * is left no motor follows. What is kept is always reached by a motor: corners of it are left out, and none is put in.
 *
 * Too far is more than twice the slack and half a step: on a chord a line is within the slack of its pulses, at a
 * corner a motor within the slack of the chords, and pulses are half a step from a line. To start or stop at once at a
 * rate v is to be off by v^2 / 8a at most from what goes with the acceleration a: that is the slack then, if it is
 * more. A motion may begin before its first pulse: no motor does, but it is a part of a step late then, and has force
 * left. */
#include <math.h>
#include <string.h>

#include "judge.h"

enum { CORNERS = 48, ROOM = 2 * CORNERS, PARTS = 16 };

/* Where a motor is, from where its pulses are, and at which rate it goes. */
struct state {
    double place;
    double rate;
};

/* Convex, its corners counterclockwise. */
struct reached {
    int count;
    struct state corners[ROOM];
};

/* An axis: how far a motor may be off, and in which parts of a time it is looked at, so that between them it leaves
 * these bounds by a 128th of them at most. */
struct bounds {
    double accel;
    double off;
    double still; /* up to this rate a motor stands */
    double part;
};

static double cross(struct state one, struct state other) {
    return one.place * other.rate - one.rate * other.place;
}

static struct state difference(struct state one, struct state other) {
    return (struct state){one.place - other.place, one.rate - other.rate};
}

static void put(struct reached *reached, struct state corner) {
    if (reached->count < ROOM) {
        reached->corners[reached->count++] = corner;
    }
}

/* Leaves out the corner that counts least. */
static void leave_one_out(struct reached *reached) {
    int least = 0;
    double least_area = INFINITY;
    for (int at = 0; at < reached->count; at++) {
        struct state corner = reached->corners[at];
        struct state before = reached->corners[(at + reached->count - 1) % reached->count];
        struct state after = reached->corners[(at + 1) % reached->count];
        double area = cross(difference(corner, before), difference(after, before));
        if (area < least_area) {
            least = at;
            least_area = area;
        }
    }
    reached->count--;
    memmove(&reached->corners[least], &reached->corners[least + 1],
            (size_t)(reached->count - least) * sizeof reached->corners[0]);
}

/* Where it goes in a time by itself. */
static void drift(struct reached *reached, double time) {
    for (int at = 0; at < reached->count; at++) {
        reached->corners[at].place += reached->corners[at].rate * time;
    }
}

/* A corner moved along an edge's side: by `by`, or back. */
static struct state moved(struct state corner, struct state by, bool is_ahead) {
    double sign = is_ahead ? 1 : -1;
    return (struct state){corner.place + sign * by.place, corner.rate + sign * by.rate};
}

/* Adds what any acceleration in a time does, from none to the greatest in both directions. */
static void accelerate(struct reached *reached, double accel, double time) {
    const struct state by = {accel * time * time / 2, accel * time};
    struct reached before = *reached;
    reached->count = 0;
    struct state last = before.corners[before.count - 1];
    bool was_ahead = cross(by, difference(before.corners[0], last)) > 0;
    for (int at = 0; at < before.count; at++) {
        struct state corner = before.corners[at];
        bool is_ahead = cross(by, difference(before.corners[(at + 1) % before.count], corner)) > 0;
        put(reached, moved(corner, by, was_ahead));
        if (is_ahead != was_ahead) {
            put(reached, moved(corner, by, is_ahead));
        }
        was_ahead = is_ahead;
    }
    while (reached->count > CORNERS) {
        leave_one_out(reached);
    }
}

/* Cuts off what is beyond a line: only where `along` times place and `across` times rate is at most `most` it stays. */
static void cut(struct reached *reached, double along, double across, double most) {
    struct reached before = *reached;
    reached->count = 0;
    for (int at = 0; at < before.count; at++) {
        struct state one = before.corners[at];
        struct state other = before.corners[(at + 1) % before.count];
        double beyond = along * one.place + across * one.rate - most;
        double next = along * other.place + across * other.rate - most;
        if (beyond <= 0) {
            put(reached, one);
        }
        if ((beyond < 0 && next > 0) || (beyond > 0 && next < 0)) {
            double part = beyond / (beyond - next);
            put(reached, (struct state){one.place + part * (other.place - one.place),
                                        one.rate + part * (other.rate - one.rate)});
        }
    }
}

static void cut_places(struct reached *reached, double low, double high) {
    cut(reached, 1, 0, high);
    cut(reached, -1, 0, -low);
}

static void go(struct reached *reached, const struct bounds *bounds, double time, int parts) {
    for (int part = 0; part < parts && reached->count > 2; part++) {
        drift(reached, time / parts);
        accelerate(reached, bounds->accel, time / parts);
        cut_places(reached, -bounds->off, bounds->off);
    }
}

/* Whatever stands is left, at any rate at which it starts at once. */
static void stand(struct reached *reached, const struct bounds *bounds) {
    double most = bounds->still;
    double low = INFINITY;
    double high = -INFINITY;
    cut(reached, 0, 1, most);
    cut(reached, 0, -1, most);
    if (reached->count < 3) {
        return;
    }
    for (int at = 0; at < reached->count; at++) {
        low = fmin(low, reached->corners[at].place);
        high = fmax(high, reached->corners[at].place);
    }
    *reached = (struct reached){4, {{low, -most}, {high, -most}, {high, most}, {low, most}}};
}

/* A time without a step. In a long one it stands for a while: none has to, but one that does is enough. */
static void pass(struct reached *reached, const struct bounds *bounds, double time) {
    double parts = ceil(time / bounds->part);
    if (parts <= 2 * PARTS) {
        go(reached, bounds, time, (int)parts);
        return;
    }
    go(reached, bounds, PARTS * bounds->part, PARTS);
    stand(reached, bounds);
    go(reached, bounds, PARTS * bounds->part, PARTS);
}

/* A step: places are told from where the pulses are then. It is near enough before it and after it. */
static void step_by(struct reached *reached, const struct bounds *bounds, int step) {
    for (int at = 0; at < reached->count; at++) {
        reached->corners[at].place -= step;
    }
    cut_places(reached, -bounds->off, bounds->off);
}

static struct bounds bounds_of(const struct motors *motors, int axis) {
    double accel = motors->accel[axis];
    double start = motors->start[axis];
    double off = 2 * fmax(motors->slack, start * start / (8 * accel)) + 0.5;
    double still = fmax(start, sqrt(accel) / 1000); /* a thousandth of what half a step brings */
    return (struct bounds){accel, off, still, sqrt(off / (16 * accel))};
}

/* Whether everything stands still between a pulse and the line behind it. */
static bool is_last(const struct timed_line *line) {
    return line[1].kind != 'P' || line[1].asked == END;
}

/* Stands, wherever it may, and has begun to move: as long before its first pulse as it likes. */
static void begin(struct reached *reached, const struct bounds *bounds) {
    stand(reached, bounds);
    go(reached, bounds, PARTS * bounds->part, PARTS);
}

/* A pulse, from the moment up to which the axis was looked at. Behind a last one it stands before the next line. */
static void pulse(struct reached *reached, const struct bounds *bounds, const struct timed_line *line, int step,
                  uint64_t *moment_ns) {
    pass(reached, bounds, (double)(line->due_ns - *moment_ns) / 1e9);
    step_by(reached, bounds, step);
    *moment_ns = line->due_ns;
    if (is_last(line)) {
        pass(reached, bounds, seconds_of(line, 0, 1));
        begin(reached, bounds);
        *moment_ns = line[1].due_ns;
    }
}

static struct verdict judge_axis(const struct timed_line *lines, int axis, const struct bounds *bounds) {
    static const char *const what[] = {"no motor follows X within its acceleration, so many steps off",
                                       "no motor follows Y within its acceleration, so many steps off",
                                       "no motor follows Z within its acceleration, so many steps off"};
    double most = bounds->still;
    double off = bounds->off;
    struct reached reached = {4, {{-off, -most}, {off, -most}, {off, most}, {-off, most}}};
    uint64_t moment_ns = 0;
    begin(&reached, bounds);
    for (size_t at = 0; lines[at].kind != '\0'; at++) {
        const struct timed_line *line = &lines[at];
        if (line->kind == 'P' && (line->step[axis] != 0 || is_last(line))) {
            pulse(&reached, bounds, line, line->step[axis], &moment_ns);
        }
        if (reached.count <= 2) {
            return at_most(what[axis], at, INFINITY, off);
        }
    }
    return right();
}

struct verdict judge_motion(const struct timed_line *lines, const struct motors *motors) {
    struct verdict verdict = right();
    for (int axis = 0; axis < 3 && verdict.what == NULL; axis++) {
        struct bounds bounds = bounds_of(motors, axis);
        verdict = judge_axis(lines, axis, &bounds);
    }
    return verdict;
}

struct verdict judge(const struct timed_line *lines, const struct motors *motors) {
    struct verdict verdict = judge_least_times(lines, motors);
    if (verdict.what == NULL) {
        verdict = judge_rates(lines, motors);
    }
    return verdict.what == NULL ? judge_motion(lines, motors) : verdict;
}
