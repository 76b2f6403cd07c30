/* What whoever asks may have done at once, without an answer. */
#ifndef ORDERS_H
#define ORDERS_H

#include <stddef.h>

#include "player.h"

/* Does what a datagram asks for that is done at once and not answered. Whether it was one. */
bool order_heed(struct player *player, const char *text, size_t size);

#endif
