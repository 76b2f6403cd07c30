#include "pace.h"

#include <inttypes.h>
#include <stdlib.h>

#include "cause.h"

enum { NS_PER_US = 1000 };

/* The handle and its memory have room for what the proved crate wants, or nothing moves. */
static void fail(uint32_t why) {
    say("player: no ramps: ng_pace says %" PRIu32, why);
    exit(2);
}

static void make(struct pace *pace) {
    if (ng_pace_size() > sizeof pace->handle) {
        fail(UINT32_MAX);
    }
    ng_pace_make(pace->handle);
    pace->is_made = true;
}

static void begin_ramps(struct pace *pace, const struct pace_limits *limits) {
    if (!pace->is_made) {
        make(pace);
    }
    uint32_t why = ng_pace_begin(pace->handle, *limits, PACE_ROOM);
    if (why != 0) {
        fail(why);
    }
}

void pace_begin(struct pace *pace, const struct pace_limits *limits) {
    pace->is_plain = limits == NULL;
    if (!pace->is_plain) {
        begin_ramps(pace, limits);
    }
    pace->first = pace->known = pace->ramp = 0;
    pace->is_at_rest = true;
}

/* Whether a plain one has its line. */
static bool has_line(const struct pace *pace) {
    return pace->first < pace->known;
}

/* How long a line lasts, in nanoseconds, as OUT says. */
static uint64_t lasts_ns(const struct line *line) {
    uint64_t us = line->kind == 'S' ? 0 : line->us;
    return us < UINT64_MAX / NS_PER_US ? us * NS_PER_US : UINT64_MAX;
}

/* The same as pace_next, of a plain one. */
static bool next_plain(struct pace *pace, uint64_t wanted, uint64_t *ns) {
    if (wanted == 0 || !has_line(pace)) {
        return false;
    }
    *ns = pace->plain_ns;
    pace->first++;
    return true;
}

bool pace_is_full(struct pace *pace) {
    return pace->is_plain ? has_line(pace) : ng_pace_is_full(pace->handle);
}

void pace_push(struct pace *pace, const struct line *line) {
    if (pace->is_plain) {
        pace->plain_ns = lasts_ns(line);
        pace->known++;
        return;
    }
    const struct ng_pace_line passed = {line->us, (uint32_t)line->kind, {line->step[0], line->step[1], line->step[2]}};
    pace->known += ng_pace_push(pace->handle, passed);
}

void pace_end(struct pace *pace) {
    if (!pace->is_plain) {
        ng_pace_end(pace->handle);
    }
}

bool pace_is_ready(struct pace *pace) {
    return pace->is_plain ? has_line(pace) : ng_pace_is_ready(pace->handle);
}

bool pace_next(struct pace *pace, uint64_t wanted, uint64_t *ns) {
    if (pace->is_plain) {
        return next_plain(pace, wanted, ns);
    }
    const struct ng_pace_given given = ng_pace_next(pace->handle, wanted);
    if (!given.is_given) {
        return false;
    }
    *ns = given.ns;
    pace->ramp = given.ramp;
    pace->is_at_rest = given.is_at_rest;
    pace->first++;
    return true;
}

uint64_t pace_wanted(struct pace *pace, unsigned percent) {
    return pace->is_plain ? UINT64_MAX : ng_pace_wanted(pace->handle, percent);
}
