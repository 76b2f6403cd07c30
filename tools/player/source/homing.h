/* Homing: each axis goes to its switch fast, away from it, then slowly to it and away again, twice. */
#ifndef HOMING_H
#define HOMING_H

#include "cause.h"
#include "play.h"

/* Homes the axes that are asked for, in their order. `how` is `done`, or says why it came to rest before. */
enum end home_axes_now(struct play *play, unsigned axes, struct cause *how);

#endif
