/* How long a switch of the outputs waits for the spindle. */
#ifndef SPINDLE_H
#define SPINDLE_H

#include "play.h"

/* Waits, behind a switch, for the seconds that the spindle takes, and then until it is at its speed; false where the
 * play has to stop before. */
bool spindle_wait(struct play *play, const struct outputs *before, const struct outputs *now);

/* Waits, behind a switch that starts the spindle, turns it the other way or changes its speed, until the input says
 * that it is at its speed, if there is one. After the time of the machine's file it is held, and waits again once it is
 * released. False where the play has to stop before. */
bool spindle_wait_at_speed(struct play *play, const struct outputs *before, const struct outputs *now);

/* What an override of the spindle may be, in percent of OUT's speeds: above the whole where the machine's file says how
 * fast the spindle may turn. */
enum { LEAST_SPINDLE_PERCENT = 10, WHOLE_SPEED = 100, MOST_SPINDLE_PERCENT = 200 };
int spindle_most_percent(const struct machine *machine);

/* A speed of OUT, in millionths, by the override and what the spindle may have. */
uint64_t spindle_speed(const struct play *play, uint64_t speed);

/* Gives a line to the pins, now: of a switch the speed is by the override. Returns 0, or the number of an error. */
int spindle_set_pins(struct play *play, const struct line *line, const char *text, size_t size);

/* Sets the spindle's speed where somebody overrides it otherwise since; false, with the cause, where the pins fail. */
bool spindle_heed(struct play *play);

/* Whether a switch has to wait for that. */
bool spindle_has_to_speed_up(const struct play *play, const struct outputs *before, const struct outputs *now);

#endif
