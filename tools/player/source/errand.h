/* What a player does besides OUT's next lines: it goes on to a line of OUT, back to one, by legs or in one straight
 * line to a point, or switches outputs where it stands.
 *
 * What the record says meanwhile. At each moment the motors are where its `reference` is, and but for legs that is
 * where the first `lines` lines of OUT lead, its first `bytes` bytes: on along the lines both counts grow, and back
 * along them they fall. By legs `reference` moves alone, and with the last pulse the counts become those of the line at
 * whose end the legs end. */
#ifndef ERRAND_H
#define ERRAND_H

#include <stdbool.h>
#include <stddef.h>
#include <stdint.h>

#include "cause.h"
#include "line.h"

enum { LEGS = 3 };

/* Where somebody sends the motors. */
struct wish {
    uint64_t bytes; /* where so many bytes of OUT lead */
    bool is_on;     /* `on` is switched on before */
    struct outputs on;
    bool asks_look; /* somebody at the player's terminal looks then, and agrees, before anything moves */
    bool is_switch;   /* that alone: nothing moves */
    bool is_by_legs;  /* up to `lift_nm`, over, and down to `nm` .. */
    bool is_straight; /* .. or in one line there */
    int64_t lift_nm;
    int64_t nm[3];
    int64_t nm_per_min; /* the most of the last leg, and of a way back; 0 for no other than the traverse rate */
};

/* What is to be done, if it is there. */
struct errand {
    bool is_there;
    uint64_t lines;
    uint64_t bytes;
    struct wish wish;
    int64_t legs[LEGS][3]; /* the points that follow each other, in steps .. */
    uint64_t legs_lines;   /* .. which end where so many lines .. */
    uint64_t legs_bytes;   /* .. and bytes of OUT lead */
};

struct player;
struct play;

/* Reads a datagram that sends the player; false for other text. */
bool wish_read(const char *text, size_t size, struct wish *wish);

/* Takes a wish as errand, if it stands with nothing in hand; else false, with the cause. The lock is held. */
bool errand_take(struct player *player, const struct wish *wish, struct cause *why);

/* The line of OUT to which an errand leads: another number than that of the lines until it is done. */
uint64_t errand_line(const struct player *player);

#endif
