#include "chance_streams.h"

#include <math.h>

enum { STRAIGHT, ARC, SPLINE, SHUTTLE, ZIGZAG, ANYWHERE, KINDS };

static const double TURN = 6.283185307179586;

struct chance chance_of(uint64_t seed) {
    return (struct chance){seed * UINT64_C(0x9e3779b97f4a7c15) + 1};
}

uint64_t chance_below(struct chance *chance, uint64_t below) {
    chance->state ^= chance->state << 13;
    chance->state ^= chance->state >> 7;
    chance->state ^= chance->state << 17;
    return (chance->state >> 11) % below;
}

double chance_between(struct chance *chance, double low, double high) {
    return low + (high - low) * (double)chance_below(chance, 1u << 30) / (double)(1u << 30);
}

double chance_of_size(struct chance *chance, double low, double high) {
    return exp(chance_between(chance, log(low), log(high)));
}

/* A direction in which the longest axis has a step a pulse, at least one axis of three. */
static void aim(struct part *part, struct chance *chance) {
    double longest = 0;
    for (int axis = 0; axis < 3; axis++) {
        bool moves = axis == 0 || chance_below(chance, 2) == 0;
        part->slope[axis] = moves ? chance_between(chance, -1, 1) : 0;
        longest = fmax(longest, fabs(part->slope[axis]));
    }
    for (int axis = 0; axis < 3; axis++) {
        part->slope[axis] = longest > 0 ? part->slope[axis] / longest : 1;
    }
}

struct part part_by_chance(struct chance *chance, double least_us, double most_us) {
    struct part part = {.kind = (int)chance_below(chance, KINDS)};
    part.pulses = (uint64_t)chance_of_size(chance, 1, 2000);
    part.periods = chance_below(chance, 3) == 0 ? 1 + (unsigned)chance_below(chance, MOST_PERIODS) : 1;
    for (unsigned turn = 0; turn < part.periods; turn++) {
        part.us[turn] = (uint64_t)chance_of_size(chance, least_us, most_us);
    }
    aim(&part, chance);
    part.turn = chance_of_size(chance, 1e-5, 0.3);
    part.radius = chance_of_size(chance, 1, 20000);
    part.angle = chance_between(chance, 0, TURN);
    part.plane = (int)chance_below(chance, 3);
    part.back = (uint64_t)chance_of_size(chance, 1, 1000);
    return part;
}

/* Along a smooth curve whose direction goes round, in the plane of two axes. */
static void bend(struct part *part) {
    part->angle += part->turn;
    part->place[0] += cos(part->angle);
    part->place[1] += sin(part->angle);
    part->place[2] += part->slope[2] / 4;
}

/* One step of one axis a pulse, near a circle. */
static void go_round(struct part *part, int step[3]) {
    double along[2] = {-sin(part->angle), cos(part->angle)};
    double both = fabs(along[0]) + fabs(along[1]);
    part->share += fabs(along[1]) / both;
    int axis = part->share >= 0.5 ? 1 : 0;
    part->share -= axis;
    part->angle = fmod(part->angle + 1 / (part->radius * both), TURN);
    step[axis] = along[axis] < 0 ? -1 : 1;
}

/* Where the rounded place is now, from where it was. */
static void round_off(struct part *part, int step[3]) {
    for (int axis = 0; axis < 3; axis++) {
        int64_t at = (int64_t)floor(part->place[axis] + 0.5);
        step[axis] = (int)(at - part->at[axis]);
        part->at[axis] = at;
    }
}

static void go_straight(struct part *part, int step[3]) {
    for (int axis = 0; axis < 3; axis++) {
        part->place[axis] += part->slope[axis];
    }
    round_off(part, step);
}

static void go_anywhere(struct chance *chance, int step[3]) {
    while (step[0] == 0 && step[1] == 0 && step[2] == 0) {
        for (int axis = 0; axis < 3; axis++) {
            step[axis] = (int)chance_below(chance, 3) - 1;
        }
    }
}

static void turn_round(struct part *part) {
    for (int axis = 0; axis < 3; axis++) {
        part->slope[axis] = -part->slope[axis];
    }
}

uint64_t part_pulse(struct part *part, struct chance *chance, int step[3]) {
    int plain[3] = {0, 0, 0};
    bool turns = part->made % part->back == 0;
    if (part->kind == ARC) {
        go_round(part, plain);
    } else if (part->kind == ANYWHERE) {
        go_anywhere(chance, plain);
    } else if (part->kind == SPLINE) {
        bend(part);
        round_off(part, plain);
    } else {
        if (part->kind == SHUTTLE && turns) {
            turn_round(part);
        }
        if (part->kind == ZIGZAG && turns) {
            aim(part, chance);
        }
        go_straight(part, plain);
    }
    for (int axis = 0; axis < 3; axis++) {
        step[axis] = plain[(axis + part->plane) % 3];
    }
    part->pulses--;
    part->made++;
    return part->us[(part->made - 1) % part->periods];
}
