/* An errand, done: back along OUT, by legs, or a switch alone; each move in its time, or by ramps. On along OUT its
 * lines are carried out as ever. */
#ifndef ERRAND_MOVES_H
#define ERRAND_MOVES_H

#include "play.h"
#include "way.h"

/* Whether there is an errand, and does it. */
bool has_errand(struct play *play);
enum end do_errand(struct play *play);

/* Sums up the legs of an errand. */
void legs_look(struct play *play, struct way_sum *sum);

#endif
