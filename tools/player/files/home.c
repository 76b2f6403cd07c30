#include "home.h"

#include <inttypes.h>

static const char axis_names[] = "XYZ";

enum { NM_PER_UM = 1000, NM_PER_MM = 1000000 };

unsigned home_axes(const struct home *home) {
    unsigned axes = 0;
    for (int axis = 0; axis < 3; axis++) {
        axes |= home->is_there && home->order[axis] != 0 ? 1U << axis : 0;
    }
    return axes;
}

/* Whether a number from 1 to 3 stands twice. */
static bool is_twice(const int64_t order[3]) {
    bool is_same = false;
    for (int axis = 0; axis < 3; axis++) {
        is_same |= order[axis] != 0 && order[axis] == order[(axis + 1) % 3];
    }
    return is_same;
}

/* Looks at an axis. */
static bool check_axis(struct home *home, int axis, const struct settings *settings, const char *path,
                       struct cause *why) {
    int64_t at_nm = home->at_um[axis] * NM_PER_UM;
    int64_t travel_mm = (settings->high_nm[axis] - settings->low_nm[axis]) / NM_PER_MM;
    if (home->direction[axis] == 0) {
        return because(why, "%s: home: direction of %c is 0, and takes -1 or 1", path, axis_names[axis]);
    }
    if (at_nm < settings->low_nm[axis] || at_nm > settings->high_nm[axis]) {
        return because(why, "%s: home: at_um of %c is %" PRId64 ": it lies outside the travel", path, axis_names[axis],
                       home->at_um[axis]);
    }
    if (home->way_mm[axis] == 0) {
        home->way_mm[axis] = travel_mm + travel_mm / 10 + 1;
    }
    return true;
}

bool home_check(struct home *home, const struct settings *settings, const char *path, struct cause *why) {
    bool is_right = !is_twice(home->order)
        || because(why, "%s: home: order has a number twice: one axis is homed after the other", path);
    for (int axis = 0; axis < 3 && is_right; axis++) {
        is_right = (home_axes(home) >> axis & 1) == 0 || check_axis(home, axis, settings, path, why);
    }
    return is_right;
}
