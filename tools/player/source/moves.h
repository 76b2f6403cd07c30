/* Where the moves of an errand come from: OUT, or legs. */
#ifndef MOVES_H
#define MOVES_H

#include "play.h"
#include "way.h"

/* The moves that are left: along OUT, or of legs, of which one is under way. */
struct moves {
    struct play *play;
    bool is_by_legs;
    struct way way;
    int leg;
    int64_t number;   /* of the pulses of the leg, from 0 .. */
    int64_t count;    /* .. so many .. */
    uint64_t us;      /* .. of so many microseconds .. */
    int64_t begun[3]; /* .. from here .. */
    int64_t at[3];    /* .. to here, now */
    uint64_t least_us[8]; /* back: of a pulse that moves X (1), Y (2) and Z (4) */
    bool has_later;   /* the pulse that comes next: with the last one the counts change */
    struct move later;
};

/* Begins with the errand of a player. */
void moves_begin(struct moves *moves, struct play *play);

/* The next move; NO_LINE, with the cause, at what isn't a line of OUT. */
enum step moves_next(struct moves *moves, struct move *move, struct cause *why);

#endif
