#include "machine.h"

#include <string.h>

#include "machine_keys.h"

enum { HALF = 96, LEAST_ACCEL = 3, GREATEST_ACCEL = 1000000000, NM_PER_MM = 1000000, S_PER_MIN = 60 };
enum { DEFAULT_SLACK = 2, DEFAULT_PERCENT = 100, DEFAULT_AT_SPEED_S = 10, DEFAULT_AGREE_UM = 20 };
enum { DEFAULT_BAUD = 2000000 };
enum { MILLIONTHS = 1000000 }; /* of a turn a minute, in which speeds are */

#define NS_PER_S INT64_C(1000000000)

/* Steps a second of so many millimetres in so many seconds. */
static uint64_t in_whole_steps(int64_t mm, int64_t step_nm, int64_t seconds) {
    return (uint64_t)(mm * NM_PER_MM / (seconds * step_nm));
}

/* The inputs, without their numbers where the file has none. */
static void read_inputs(const struct content *content, struct inputs *inputs) {
    const struct value *low = &content->values[LOW];
    inputs->are_there = content->is_found[INPUTS] || content->is_found[HOME];
    inputs->emergency_stop = (int)number_of(content, STOP, NO_INPUT);
    inputs->door = (int)number_of(content, DOOR, NO_INPUT);
    inputs->spindle_at_speed = (int)number_of(content, AT_SPEED, NO_INPUT);
    inputs->probe = (int)number_of(content, PROBE, NO_INPUT);
    inputs->at_speed_ns = number_of(content, AT_SPEED_S, DEFAULT_AT_SPEED_S) * NS_PER_S;
    for (int axis = 0; axis < 3; axis++) {
        bool has_low = content->is_there[LIMITS_LOW];
        bool has_high = content->is_there[LIMITS_HIGH];
        inputs->limits[LOW_END][axis] = has_low ? (int)content->values[LIMITS_LOW].numbers[axis] : NO_INPUT;
        inputs->limits[HIGH_END][axis] = has_high ? (int)content->values[LIMITS_HIGH].numbers[axis] : NO_INPUT;
    }
    inputs->low = 0;
    for (int at = 0; at < low->count; at++) {
        inputs->low |= input_bit((int)low->numbers[at]);
    }
}

static void read_home(const struct content *content, struct home *home) {
    int64_t *const numbers[] = {home->order, home->input, home->direction, home->fast_mm_min, home->slow_mm_min,
                                home->pull_off_um, home->at_um, home->way_mm};
    home->is_there = content->is_found[HOME];
    for (int key = ORDER; key <= WAY; key++) {
        memcpy(numbers[key - ORDER], content->values[key].numbers, 3 * sizeof(int64_t));
    }
    home->agree_um = number_of(content, AGREE, DEFAULT_AGREE_UM);
}

static void read_sink(const struct content *content, struct sink_settings *sink) {
    const struct scan *line = &content->values[LINE].words;
    memset(sink->line, 0, sizeof sink->line);
    if (content->is_there[LINE]) {
        memcpy(sink->line, line->at, (size_t)(line->end - line->at));
    }
    sink->baud = (int)number_of(content, BAUD, DEFAULT_BAUD);
    sink->debounce_us = (int)number_of(content, DEBOUNCE, 0);
}

/* What the motors allow, in steps. */
static bool read_limits(const char *path, const struct content *content, const int64_t step_nm[3],
                        struct pace_limits *limits, struct cause *why) {
    for (int axis = 0; axis < 3; axis++) {
        int64_t rate = content->values[RATE].numbers[axis];
        limits->accel[axis] = in_whole_steps(content->values[ACCEL].numbers[axis], step_nm[axis], 1);
        limits->rate[axis] = in_whole_steps(rate, step_nm[axis], S_PER_MIN);
        limits->start[axis] = in_whole_steps(content->values[START].numbers[axis], step_nm[axis], S_PER_MIN);
        if (limits->accel[axis] < LEAST_ACCEL) {
            return because(why, "%s: motion: accel_mm_s2 is less than 3 steps a second, each second", path);
        }
        if (limits->accel[axis] > GREATEST_ACCEL) {
            return because(why, "%s: motion: accel_mm_s2 is more than 1000000000 steps a second, each second", path);
        }
        if (rate > 0 && limits->rate[axis] == 0) {
            return because(why, "%s: motion: rate_mm_min is less than a step a second", path);
        }
    }
    limits->half = HALF;
    limits->slack = (uint64_t)number_of(content, SLACK, DEFAULT_SLACK);
    limits->most_percent = (uint64_t)number_of(content, MOST, DEFAULT_PERCENT);
    return true;
}

bool machine_read(const char *path, const int64_t step_nm[3], struct machine *machine, struct cause *why) {
    static struct content content;
    if (!machine_keys_read(path, &content, why)) {
        return false;
    }
    read_sink(&content, &machine->sink);
    read_inputs(&content, &machine->inputs);
    read_home(&content, &machine->home);
    machine->window_lines = (uint64_t)number_of(&content, LINES, 0);
    machine->most_speed = (uint64_t)number_of(&content, MAX_RPM, 0) * MILLIONTHS;
    machine->spindle_ns = number_of(&content, SPINDLE, 0) * NS_PER_S;
    memcpy(machine->backlash, content.values[STEPS].numbers, sizeof machine->backlash);
    return read_limits(path, &content, step_nm, &machine->limits, why);
}
