#include "backlash.h"

#include <stdio.h>

/* How many extra steps up are left. */
static int left_up(const struct backlash *backlash, const int screws[3], int axis) {
    int most = backlash->steps[axis];
    int left = screws[axis] == SCREW_UP ? 0 : screws[axis];
    return left < most ? left : most;
}

int backlash_left(const struct backlash *backlash, const int screws[3], int axis, int sign) {
    int up = left_up(backlash, screws, axis);
    if (screws[axis] == SCREW_UNKNOWN || sign == 0) {
        return 0;
    }
    return sign > 0 ? up : backlash->steps[axis] - up;
}

bool backlash_before(const struct backlash *backlash, const int screws[3], const struct line *line,
                     struct line *extra) {
    int axes = 0;
    *extra = *line;
    for (int axis = 0; axis < 3; axis++) {
        if (axes == 2 || backlash_left(backlash, screws, axis, line->step[axis]) == 0) {
            extra->step[axis] = 0;
        } else {
            axes++;
            extra->us = extra->us > backlash->least_us[axis] ? extra->us : backlash->least_us[axis];
        }
    }
    return axes > 0;
}

/* Where a screw is with so many extra steps up left. */
static int screw_with(int left, int most) {
    if (left == 0) {
        return SCREW_UP;
    }
    return left == most ? SCREW_DOWN : left;
}

void backlash_take(const struct backlash *backlash, int screws[3], const struct line *line, bool is_extra) {
    for (int axis = 0; axis < 3; axis++) {
        int step = line->step[axis];
        int most = backlash->steps[axis];
        if (step != 0 && most != 0) {
            int left = step > 0 ? 0 : most;
            screws[axis] = screw_with(is_extra ? left_up(backlash, screws, axis) - step : left, most);
        }
    }
}

static void screw_print(char *text, size_t room, int screw) {
    switch (screw) {
    case SCREW_UNKNOWN:
        snprintf(text, room, "?");
        return;
    case SCREW_UP:
        snprintf(text, room, "+");
        return;
    case SCREW_DOWN:
        snprintf(text, room, "-");
        return;
    default:
        snprintf(text, room, "%d", screw);
    }
}

void screws_print(char *text, size_t room, const int screws[3]) {
    char axis[3][8];
    bool is_any = false;
    for (int number = 0; number < 3; number++) {
        screw_print(axis[number], sizeof axis[number], screws[number]);
        is_any = is_any || screws[number] != SCREW_UNKNOWN;
    }
    text[0] = '\0';
    if (is_any) {
        snprintf(text, room, "screws %s %s %s\n", axis[0], axis[1], axis[2]);
    }
}

/* "+", "-", "?", or a number of steps. */
static bool read_screw(struct scan *line, int *screw) {
    uint64_t left = 0;
    if (scan_word(line, "?")) {
        *screw = SCREW_UNKNOWN;
    } else if (scan_word(line, "+")) {
        *screw = SCREW_UP;
    } else if (scan_word(line, "-")) {
        *screw = SCREW_DOWN;
    } else {
        *screw = scan_whole(line, 3, &left) ? (int)left : 0;
        return left > 0 && left < SCREW_DOWN;
    }
    return true;
}

bool screws_read(struct scan line, int screws[3]) {
    return scan_word(&line, "screws ") && read_screw(&line, &screws[0]) && scan_word(&line, " ")
        && read_screw(&line, &screws[1]) && scan_word(&line, " ") && read_screw(&line, &screws[2])
        && scan_is_over(&line);
}
