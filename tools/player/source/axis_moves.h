/* One axis, moved with ramps, without lines of OUT. */
#ifndef AXIS_MOVES_H
#define AXIS_MOVES_H

#include "play.h"

struct travel {
    int axis;
    int sign;
    int64_t pulses; /* at most */
    int64_t nm_per_min;
    bool (*goes_on)(struct play *play, void *context); /* asked before each pulse: once it says no it slows down */
    void *context;
};

/* Moves it, and returns once it stands. STOPPED, perhaps in the midst of a motion, where the play has to stop; FAILED
 * where the pins fail. */
enum end travel(struct play *play, const struct travel *travel);

#endif
