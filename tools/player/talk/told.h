/* What a person or the console says of where the machine stands. */
#ifndef TOLD_H
#define TOLD_H

#include "player.h"

/* Takes where the machine stands, as after its axes were moved by hand, if nothing is behind. In an alarm it tells
 * where the axes are that can't be homed. */
void told_place(struct player *player, const int64_t nm[3]);

#endif
