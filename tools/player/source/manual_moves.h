/* Moves without lines, made: home, jog and seek. */
#ifndef MANUAL_MOVES_H
#define MANUAL_MOVES_H

#include "play.h"

/* Makes the move that was asked for. STOPPED where the play has to stop, FAILED where the pins fail. */
enum end make_manual_move(struct play *play);

/* Whether the move under way goes on; else why not is noted: it is stopped, nobody asks any more, the door is open. */
bool manual_goes_on(struct play *play, struct cause *how);

/* The axis' place, in steps. */
int64_t axis_place(struct play *play, int axis);

#endif
