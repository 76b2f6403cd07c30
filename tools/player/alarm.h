/* The alarm: the emergency stop or a limit stopped the motors at once, or a step sink was lost while they may have
 * moved, and where they are isn't known any more. */
#ifndef ALARM_H
#define ALARM_H

#include <stdbool.h>
#include <stdint.h>

#include "cause.h"
#include "options.h"

enum alarm { NO_ALARM, EMERGENCY_STOP, LIMITS, SINK_LOST };

struct player;
struct play;

/* Takes over the alarm that the record tells of, unless a person tells where the machine stands, or a sink can still be
 * asked. Returns false, with the cause, where nobody could home it. */
bool alarm_take_over(struct player *player, const struct options *options, struct cause *why);

/* Whether a record's word says that what a sink made was not heard to its end: asking it may tell. */
bool alarm_is_doubtful(const char *word);

/* An alarm stands from the beginning. Returns false, with the cause, where nobody could home the machine. */
bool alarm_take(struct player *player, const struct options *options, enum alarm alarm, struct cause *why);

/* Looks whether the pins have the inputs of the machine's file. Returns false, with the cause. */
bool alarm_begin(const struct play *play, struct cause *why);

/* Looks at the inputs. Whether the motors have to stop at once: then an alarm stands, and the play knows why. An open
 * door holds them. */
bool alarm_look(struct play *play);

/* Whether one stands. */
bool alarm_stands(struct player *player);

/* The word of a record for it. */
const char *alarm_word(enum alarm alarm);

/* Stands in an alarm, with spindle and coolant off and lines in hand dropped, until the machine is homed. Whether lines
 * go on then: not where some were dropped, or it has to stop before. */
bool alarm_wait(struct play *play);

/* Lets go of all lines in hand: they would be carried out from another place. Where there are any, no more of the
 * session are carried out. */
void alarm_drop_lines(struct player *player);

/* Whether it is over once a person tells that the machine stands at these steps: all axes are homed that the machine's
 * file names, and these are where they are by the player; of the others nothing else tells. The lock is held. */
bool alarm_takes_place(const struct player *player, const int64_t steps[3]);

/* Where all axes are is known: ends it. The lock is held. */
void alarm_end(struct player *player);

#endif
