/* --go-to-line: what a player says before it goes to a line of OUT, and what keeps it from that. */
#ifndef GOING_H
#define GOING_H

#include "play.h"
#include "settings.h"

/* Looks at the way, says it, asks, and sends the player. Returns false, with the cause. */
bool going_prepare(struct play *play, const struct settings *settings, struct cause *why);

#endif
