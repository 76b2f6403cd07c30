/* A model of a motor, which may lose steps. */
#ifndef ROTOR_H
#define ROTOR_H

#include "judge.h"

struct rotor {
    double lag;      /* radians, of the field before the rotor */
    double speed;    /* radians a second */
    double most_lag; /* full steps, once all is over */
    uint64_t lost;   /* steps */
};

/* What becomes of a rotor that is turned by an axis of these lines. Behind the last is one of kind 0. */
struct rotor follow(const struct timed_line *lines, int axis);

#endif
