/* Backlash: how many steps a screw turns as its axis goes the other way, before the table follows. So many extra steps
 * are made then. They move no table, and are no line's.
 *
 * Where a screw is within its backlash is kept for each axis, so that each extra step counts by itself: a motion may
 * end amid them, and go on either way. */
#ifndef BACKLASH_H
#define BACKLASH_H

#include <stdbool.h>
#include <stdint.h>

#include "line.h"
#include "scan.h"

/* A screw is a number: so many extra steps up are left until the table follows up, or one of these. */
enum {
    SCREW_UNKNOWN = 0,
    SCREW_DOWN = 999, /* all of the backlash is left: the table follows down */
    SCREW_UP = 1000,  /* none is left */
    MOST_BACKLASH = 999
};

struct backlash {
    int steps[3];         /* 0 for none: then the screw stays unknown */
    uint64_t least_us[3]; /* that an extra step lasts: so long does a step of a traverse */
};

/* How many extra steps come before a step of an axis that way: none where the screw isn't known. */
int backlash_left(const struct backlash *backlash, const int screws[3], int axis, int sign);

/* The extra pulse that comes next before a line, if one does: it goes where the line goes, and lasts as long. It is of
 * two axes at most: Z waits for X and Y. */
bool backlash_before(const struct backlash *backlash, const int screws[3], const struct line *line,
                     struct line *extra);

/* A line is carried out, or an extra pulse is made. */
void backlash_take(const struct backlash *backlash, int screws[3], const struct line *line, bool is_extra);

/* Writes the line of a record, as "screws + - 12", where ? is for unknown; none where no screw is known. */
void screws_print(char *text, size_t room, const int screws[3]);

/* Reads such a line, without its newline; false for any other text. */
bool screws_read(struct scan line, int screws[3]);

#endif
