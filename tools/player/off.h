/* What a person has the player do at rest: spindle and coolant go off, or this session is over and another follows. */
#ifndef OFF_H
#define OFF_H

#include <stdbool.h>

#include "play.h"

/* Takes the wish that spindle and coolant go off, if the motors stand. */
void off_take(struct player *player);

/* Heeds it, at rest; false, with the cause, where the pins fail. */
bool off_heed(struct play *play);

/* Before a line of OUT, or a move of an errand: what a person switched off comes on again, and the spindle has its
 * time, unless the line says itself what is on. `is_back` says that something came on. STOPPED or FAILED as of
 * switch_on. */
enum end off_is_over(struct play *play, const struct line *line, bool *is_back);

/* The pins get again what a person switched off, amid a wait for the spindle; false, with the cause, where they
 * fail. */
bool off_ends_in_wait(struct play *play);

/* What a person switched off stays off. */
void off_forget(struct player *player);

/* Takes the wish that another session follows, but while the motors move without lines. */
void anew_take(struct player *player);

/* Whether that is wanted: then the motors have to come to rest, and the play has to stop. */
bool anew_is_wanted(struct player *player);

/* Begins the next session, at rest: spindle and coolant are off, what is in hand or stands in OUT is let go, and of a
 * file that is followed nothing is carried out before a console says so. False where the pins fail. */
bool anew_begin(struct play *play);

#endif
