/* How a machine is homed: what the table [home] of its file says. */
#ifndef HOME_H
#define HOME_H

#include <stdbool.h>
#include <stdint.h>

#include "cause.h"
#include "settings.h"

enum { ALL_AXES = 7 };

/* By axes; of one that isn't homed, the order 0 alone counts. */
struct home {
    bool is_there;
    int64_t order[3];     /* 1 to 3: which axis comes first; 0 isn't homed */
    int64_t input[3];     /* the switch */
    int64_t direction[3]; /* -1 or 1: to the switch */
    int64_t fast_mm_min[3];
    int64_t slow_mm_min[3];
    int64_t pull_off_um[3];
    int64_t at_um[3];     /* the machine coordinate where it stands afterwards */
    int64_t way_mm[3];    /* in which its switch has to be on; 0, as of the travel, before `home_check` */
    int64_t agree_um;     /* by how much two touches may differ */
};

/* Looks whether it fits a machine's travel, and sets the ways that the file doesn't. Returns false, with the cause. */
bool home_check(struct home *home, const struct settings *settings, const char *path, struct cause *why);

/* The axes that are homed: bit 0 is X. */
unsigned home_axes(const struct home *home);

#endif
