/* Pins of a simulated machine, for tests: switches are where the file `world` says, and follow the motors. The file is
 * read and written by the test meanwhile. Where there is a file `made` too, what the pins were set to is told there. */
#define _GNU_SOURCE
#include <errno.h>
#include <fcntl.h>
#include <math.h>
#include <string.h>
#include <sys/mman.h>
#include <time.h>
#include <unistd.h>

#include "pins.h"

enum { SWITCHES = 8, LAST_PULSES = 1 << 17, SOLIDS = 6, TOOLS = 4 };

enum { BOX = 1, POST, HOLE };

enum { WAS_OFF, WAS_ON, HAS_MOVED };

/* On where `sign` times the axis is at least as far as `sign` times `at`; within `bounces` steps of it by chance. Each
 * time that it goes off it moves by `drifts` steps, and then it is off until the axis has left it. */
struct toggle {
    int32_t is_there;
    int32_t input;
    int32_t axis;
    int32_t sign;
    int64_t at;
    int64_t bounces;
    int64_t drifts;
    int64_t state;
};

/* A body that what is in the spindle can touch: a box from `low` to `high`; a round post, or a round hole in a block
 * that ends nowhere: about `low` of X and Y, with the radius `high` of X, and the top `high` of Z. */
struct solid {
    int64_t kind; /* 0 for none */
    int64_t low[3];
    int64_t high[3];
};

/* What the spindle carries, by its slot, the work, and how far all went. The end of a tool is a ball, whose lowest
 * point hangs `length` below the spindle. While it touches, `input` is high; within `bounces` steps of it by chance.
 * Once it was on, and goes off, bodies are felt `grows` steps farther out from then on. */
struct work {
    int64_t input;
    int64_t bounces;
    int64_t is_dumb; /* the input doesn't come on */
    int64_t slot;
    int64_t length[TOOLS];
    int64_t radius[TOOLS];
    int64_t deepest; /* how far a ball went into a body, in steps; less than 0: how near it came */
    int64_t least[3];
    int64_t greatest[3];
    struct solid solids[SOLIDS];
    int64_t grows;
    int64_t state;
};

struct world {
    uint64_t inputs;     /* high besides */
    uint64_t pulses;     /* made so far */
    uint64_t at_pulse;   /* once so many are made, these are turned round, if it isn't 0 */
    uint64_t turned;
    uint64_t is_on;      /* spindle or coolant */
    uint64_t speed_high; /* high while the spindle turns */
    uint64_t error;      /* of the inputs */
    uint64_t chance;
    int64_t place[3];    /* where the table is, in steps of the world's own */
    struct toggle toggles[SWITCHES];
    int64_t backlash[3]; /* so many steps a screw turns before the table follows .. */
    int64_t turned_up[3]; /* .. of which so many were turned up */
    struct work work;
    uint64_t low;        /* these inputs are low while their contact is closed, and high else */
};

/* What the pins were set to: outputs, when the spindle began to turn, and the last pulses, each with when it was made
 * by the monotonic clock, its steps, and where the table was after it. */
struct made {
    uint64_t pulses;
    uint64_t spindle;
    uint64_t speed; /* in millionths */
    uint64_t mist;
    uint64_t flood;
    uint64_t slot;
    uint64_t turns_since_ns;
    uint64_t switched_ns; /* when an output changed last */
    struct {
        int64_t at_ns;
        int32_t place[3];
        int8_t step[4];
    } last[LAST_PULSES];
};

static volatile struct world *world;
static volatile struct made *made;
static volatile bool turns; /* the spindle */

static int64_t now_ns(void) {
    struct timespec now;
    clock_gettime(CLOCK_MONOTONIC, &now);
    return now.tv_sec * INT64_C(1000000000) + now.tv_nsec;
}

static void tell_outputs(const struct outputs *outputs) {
    if (made == NULL) {
        return;
    }
    bool is_same = made->spindle == outputs->spindle && made->speed == outputs->speed && made->mist == outputs->mist
        && made->flood == outputs->flood && made->slot == outputs->slot;
    if (made->spindle == 0 && outputs->spindle != 0) {
        made->turns_since_ns = (uint64_t)now_ns();
    }
    made->spindle = outputs->spindle;
    made->speed = outputs->speed;
    made->mist = outputs->mist;
    made->flood = outputs->flood;
    made->slot = outputs->slot;
    made->switched_ns = is_same ? made->switched_ns : (uint64_t)now_ns();
}

static void tell_pulse(const struct line *line) {
    if (made == NULL) {
        return;
    }
    size_t place = made->pulses % LAST_PULSES;
    for (int axis = 0; axis < 3; axis++) {
        made->last[place].step[axis] = (int8_t)line->step[axis];
        made->last[place].place[axis] = (int32_t)world->place[axis];
    }
    made->last[place].at_ns = now_ns();
    made->pulses++;
}

static void tell_off(void) {
    if (made != NULL) {
        struct outputs off = {.slot = (unsigned)made->slot, .speed = made->speed};
        tell_outputs(&off);
    }
}

static void open_made(void) {
    int file = open("made", O_RDWR | O_CLOEXEC);
    if (file >= 0) {
        void *mapped = mmap(NULL, sizeof *made, PROT_READ | PROT_WRITE, MAP_SHARED, file, 0);
        made = mapped == MAP_FAILED ? NULL : mapped;
        close(file);
        tell_off();
    }
}

bool pins_begin(const char *path, const char *const *others, struct cause *why) {
    (void)path;
    (void)others;
    open_made();
    int file = open("world", O_RDWR | O_CLOEXEC);
    void *mapped = mmap(NULL, sizeof *world, PROT_READ | PROT_WRITE, MAP_SHARED, file, 0);
    if (mapped == MAP_FAILED) {
        return because(why, "world: %s", strerror(errno));
    }
    world = mapped;
    close(file);
    return true;
}

/* Turns a screw by a step. */
static void turn(int axis, int step) {
    int64_t up = world->turned_up[axis] + step;
    bool does_follow = up < 0 || up > world->backlash[axis];
    world->place[axis] += does_follow ? step : 0;
    world->turned_up[axis] += does_follow ? 0 : step;
}

static double beyond(double at, double low, double high) {
    return at < low ? low - at : at > high ? at - high : 0;
}

/* How far a point is from a body; 0 within it. */
static double distance_to(volatile const struct solid *solid, const double at[3]) {
    double away = hypot(at[0] - (double)solid->low[0], at[1] - (double)solid->low[1]);
    double radius = (double)solid->high[0];
    double above = fmax(0, at[2] - (double)solid->high[2]);
    double from[3];
    switch (solid->kind) {
    case BOX:
        for (int axis = 0; axis < 3; axis++) {
            from[axis] = beyond(at[axis], (double)solid->low[axis], (double)solid->high[axis]);
        }
        return sqrt(from[0] * from[0] + from[1] * from[1] + from[2] * from[2]);
    case POST:
        return hypot(fmax(0, away - radius), above);
    default:
        return hypot(fmax(0, radius - away), above);
    }
}

/* How far what is in the spindle is in some body, in steps; less than 0: how far from the nearest. */
static double depth_now(void) {
    volatile const struct work *work = &world->work;
    int tool = (int)(work->slot % TOOLS);
    double radius = (double)work->radius[tool];
    double at[3] = {(double)world->place[0], (double)world->place[1],
                    (double)(world->place[2] - work->length[tool]) + radius};
    double depth = -1e12;
    for (int number = 0; number < SOLIDS; number++) {
        if (work->solids[number].kind != 0) {
            depth = fmax(depth, radius - distance_to(&work->solids[number], at));
        }
    }
    return depth;
}

static void tell_reached(void) {
    volatile struct work *work = &world->work;
    int64_t depth = (int64_t)floor(depth_now());
    work->deepest = depth > work->deepest ? depth : work->deepest;
    for (int axis = 0; axis < 3; axis++) {
        int64_t at = world->place[axis];
        work->least[axis] = at < work->least[axis] ? at : work->least[axis];
        work->greatest[axis] = at > work->greatest[axis] ? at : work->greatest[axis];
    }
}

int pins_set(const struct line *line, const char *text, size_t size) {
    (void)text;
    (void)size;
    if (line->kind == 'S') {
        world->is_on = outputs_are_on(&line->outputs);
        turns = line->outputs.spindle != 0;
        world->work.slot = (int64_t)line->outputs.slot;
        tell_outputs(&line->outputs);
    }
    for (int axis = 0; axis < 3 && line->kind == 'P'; axis++) {
        turn(axis, line->step[axis]);
    }
    world->pulses += line->kind == 'P';
    if (line->kind == 'P') {
        tell_reached();
    }
    if (line->kind == 'P') {
        tell_pulse(line);
    }
    return 0;
}

int pins_speed(const struct outputs *outputs) {
    tell_outputs(outputs);
    return 0;
}

int pins_off(void) {
    world->is_on = 0;
    turns = false;
    tell_off();
    return 0;
}

static bool is_by_chance(void) {
    uint64_t next = world->chance * UINT64_C(6364136223846793005) + 1442695040888963407;
    world->chance = next;
    return next >> 63;
}

static uint32_t level(volatile struct toggle *toggle) {
    int64_t depth = toggle->sign * (world->place[toggle->axis] - toggle->at);
    bool is_near = depth < toggle->bounces && -depth < toggle->bounces;
    bool is_on = is_near ? is_by_chance() : depth >= 0;
    if (toggle->state == HAS_MOVED && depth >= 0) {
        return 0;
    }
    if (!is_on && toggle->state == WAS_ON && toggle->drifts != 0) {
        toggle->at += toggle->drifts;
        toggle->state = HAS_MOVED;
        return 0;
    }
    toggle->state = is_on ? WAS_ON : WAS_OFF;
    return is_on ? UINT32_C(1) << toggle->input : 0;
}

/* The input of what touches the work. */
static uint32_t touching(void) {
    volatile struct work *work = &world->work;
    double depth = depth_now() + (work->state == HAS_MOVED ? (double)work->grows : 0);
    bool is_near = fabs(depth) < (double)work->bounces;
    bool is_on = (is_near ? is_by_chance() : depth >= 0) && !work->is_dumb && depth > -1e11;
    if (work->grows != 0 && work->state != HAS_MOVED) {
        work->state = is_on ? WAS_ON : work->state == WAS_ON ? HAS_MOVED : WAS_OFF;
    }
    return is_on ? UINT32_C(1) << work->input : 0;
}

int pins_inputs(uint32_t *levels) {
    *levels = (uint32_t)(world->inputs | (turns ? world->speed_high : 0));
    if (world->at_pulse != 0 && world->pulses >= world->at_pulse) {
        *levels ^= (uint32_t)world->turned;
    }
    for (int at = 0; at < SWITCHES; at++) {
        if (world->toggles[at].is_there) {
            *levels |= level(&world->toggles[at]);
        }
    }
    *levels |= touching();
    *levels ^= (uint32_t)world->low;
    return (int)world->error;
}
