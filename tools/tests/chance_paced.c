#include "chance_paced.h"

#include <math.h>
#include <string.h>

#include "pace.h"

enum { HALF = 64 };

static struct pace pace;
struct chance chance;
struct timed_line lines[MOST_LINES + 1];
size_t count;

static struct pace_limits limits_of(const struct motors *motors) {
    struct pace_limits limits = {.half = HALF, .slack = (uint64_t)motors->slack,
                                 .most_percent = (uint64_t)motors->most_percent};
    for (int axis = 0; axis < 3; axis++) {
        limits.accel[axis] = (uint64_t)motors->accel[axis];
        limits.rate[axis] = (uint64_t)motors->rate[axis];
        limits.start[axis] = (uint64_t)motors->start[axis];
    }
    return limits;
}

static void put(struct timed_line line) {
    if (count < MOST_LINES) {
        lines[count++] = line;
    }
}

void make_stream(const struct motors *motors, double least_us) {
    double usual_us = 1e6 / sqrt(motors->accel[0] * chance_of_size(&chance, 1, 4000));
    uint64_t parts = 1 + chance_below(&chance, 8);
    count = 0;
    while (parts-- > 0) {
        struct part part = part_by_chance(&chance, fmax(least_us, usual_us / 4), fmax(least_us + 1, usual_us * 4));
        while (part.pulses > 0) {
            struct timed_line line = {.kind = 'P'};
            line.us = part_pulse(&part, &chance, line.step);
            put(line);
        }
        if (chance_below(&chance, 8) == 0) {
            char kind = chance_below(&chance, 2) == 0 ? 'D' : 'S';
            put((struct timed_line){.kind = kind, .us = chance_below(&chance, 2000)});
        }
    }
}

static uint64_t push_some(uint64_t pushed, uint64_t room) {
    while (pushed < count && pace.known - pace.first < room) {
        struct line line = {.kind = lines[pushed].kind, .us = lines[pushed].us};
        memcpy(line.step, lines[pushed].step, sizeof line.step);
        pace_push(&pace, &line);
        pushed++;
    }
    return pushed;
}

/* What an operator wants: now and then a hold or an override, where he does anything. */
static uint64_t some_wish(bool is_disturbed, unsigned *percent) {
    if (is_disturbed && chance_below(&chance, 400) == 0) {
        *percent = (unsigned)chance_below(&chance, 201);
    }
    if (*percent == 0 && chance_below(&chance, 50) == 0) {
        *percent = 200;
    }
    return *percent == 0 ? 0 : pace_wanted(&pace, *percent);
}

void pace_all(const struct motors *motors) {
    static const uint64_t rooms[] = {PACE_ROOM, PACE_ROOM, 2000, 700, 60};
    const struct pace_limits limits = limits_of(motors);
    uint64_t room = rooms[chance_below(&chance, 5)];
    bool is_disturbed = chance_below(&chance, 3) == 0;
    uint64_t pushed = 0, due_ns = 0, ns = 0;
    unsigned percent = 200;
    pace_begin(&pace, &limits);
    for (size_t at = 0; at < count;) {
        pushed = push_some(pushed, room);
        lines[at].due_ns = due_ns;
        uint64_t wanted = some_wish(is_disturbed, &percent);
        bool has_rest = pace.is_at_rest;
        if (pace_next(&pace, wanted, &ns)) {
            if (has_rest && at > 0 && lines[at].asked == NOTHING && lines[at].kind == 'P') {
                lines[at].asked = HOLD;
            }
            due_ns += ns;
            at++;
        } else if (wanted == 0) {
            due_ns += chance_below(&chance, 1000000);
        } else {
            pace_end(&pace);
            lines[pushed].asked = END;
        }
    }
    lines[count] = (struct timed_line){.due_ns = due_ns};
}
