/* Answers whoever asks how far the player is (docs/PROTOCOL.md): in a thread of its own, so that a player which waits
 * for a person, a spindle or its pins isn't taken for gone. */
#ifndef ANSWERS_H
#define ANSWERS_H

#include "player.h"

/* The socket of --progress. Returns false, with the cause. */
bool answers_open(struct player *player, const char *path, struct cause *why);

/* Heeds what has come before now. */
void answers_catch_up(struct player *player);

/* The thread that answers; `player` is a struct player. */
void *answers_give(void *player);

#endif
