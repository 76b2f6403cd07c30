/* From what a player begins. */
#ifndef BEGINNING_H
#define BEGINNING_H

#include "machine.h"
#include "options.h"
#include "player.h"
#include "settings.h"

/* Opens all that a player needs, and writes the first record. Returns false, with the cause. */
bool player_begin(struct player *player, const struct options *options, struct settings *settings,
                  struct machine *machine, struct cause *why);

/* Writes the first record. Returns false, with the cause. */
bool player_keep_first(struct player *player, struct cause *why);

#endif
