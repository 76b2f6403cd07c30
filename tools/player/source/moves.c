#include "moves.h"

#include <stdlib.h>
#include <string.h>

typedef unsigned __int128 wide;
typedef __int128 wide_whole;

/* The root of a number, rounded down, by Newton. */
static wide whole_root(wide square) {
    wide root = square;
    wide next = square / 2 + square % 2;
    while (next < root) {
        root = next;
        next = (root + square / root) / 2;
    }
    return root;
}

/* How long so many nanometres take at a rate, rounded up. */
static uint64_t us_of(wide square, int64_t nm_per_min) {
    wide rate = (wide)nm_per_min;
    return (uint64_t)((whole_root(square) * 60000000 + rate - 1) / rate);
}

/* The rate of the leg under way: that of traverses, of the last one no more than was asked for. */
static int64_t rate_of_leg(const struct moves *from) {
    const struct player *player = from->play->player;
    int64_t most = player->errand.wish.nm_per_min;
    bool is_slow = from->leg == LEGS - 1 && most > 0 && most < player->traverse_nm_per_min;
    return is_slow ? most : player->traverse_nm_per_min;
}

/* Begins a leg: all axes together. */
static void begin_leg(struct moves *from) {
    const struct player *player = from->play->player;
    const int64_t *end = player->errand.legs[from->leg];
    wide square = 0;
    from->count = 0;
    from->number = 0;
    for (int axis = 0; axis < 3; axis++) {
        int64_t steps = end[axis] - from->at[axis];
        wide nm = (wide)(llabs(steps) * player->step_nm[axis]);
        from->begun[axis] = from->at[axis];
        from->count = llabs(steps) > from->count ? llabs(steps) : from->count;
        square += nm * nm;
    }
    wide rate = (wide)rate_of_leg(from) * (wide)(from->count > 0 ? from->count : 1);
    from->us = (uint64_t)((whole_root(square) * 60000000 + rate - 1) / rate);
    from->us = from->us > player->least_us ? from->us : player->least_us;
}

/* The next pulse of the legs; false behind the last one. */
static bool next_pulse(struct moves *from, struct move *move) {
    const struct player *player = from->play->player;
    while (from->number == from->count) {
        from->leg++;
        if (from->leg == LEGS) {
            return false;
        }
        begin_leg(from);
    }
    from->number++;
    memset(move, 0, sizeof *move);
    move->is_done = true;
    move->line.kind = 'P';
    move->line.us = from->us;
    move->lines = player->lines;
    move->bytes = player->bytes;
    for (int axis = 0; axis < 3; axis++) {
        wide_whole all = player->errand.legs[from->leg][axis] - from->begun[axis];
        wide_whole both = 2 * (wide_whole)from->count;
        wide_whole twice = 2 * from->number * all + from->count;
        int64_t there = from->begun[axis] + (int64_t)(twice >= 0 ? twice / both : -((both - 1 - twice) / both));
        move->line.step[axis] = (int)(there - from->at[axis]);
        from->at[axis] = there;
    }
    return true;
}

/* The next move back along OUT: no pulse is faster than was asked for. */
static enum step next_back(struct moves *from, struct move *move, struct cause *why) {
    enum step step = way_next(&from->way, move, why);
    const struct line *line = &move->line;
    if (step == MOVE && move->is_done && line->kind == 'P') {
        uint64_t least = from->least_us[(line->step[0] != 0) + 2 * (line->step[1] != 0) + 4 * (line->step[2] != 0)];
        move->line.us = line->us > least ? line->us : least;
    }
    return step;
}

/* What each pulse of a way back takes at least. */
static void set_least(struct moves *from) {
    const struct player *player = from->play->player;
    for (int axes = 0; axes < 8; axes++) {
        wide square = 0;
        for (int axis = 0; axis < 3; axis++) {
            wide nm = (wide)((axes >> axis & 1) * player->step_nm[axis]);
            square += nm * nm;
        }
        from->least_us[axes] = player->errand.wish.nm_per_min > 0 ? us_of(square, player->errand.wish.nm_per_min) : 0;
    }
}

enum step moves_next(struct moves *from, struct move *move, struct cause *why) {
    const struct errand *errand = &from->play->player->errand;
    if (!from->is_by_legs) {
        return next_back(from, move, why);
    }
    bool is_there = from->has_later;
    *move = from->later;
    from->has_later = is_there && next_pulse(from, &from->later);
    if (is_there && !from->has_later) {
        move->lines = errand->legs_lines;
        move->bytes = errand->legs_bytes;
    }
    return is_there ? MOVE : NO_MORE;
}

void moves_begin(struct moves *from, struct play *play) {
    const struct player *player = play->player;
    from->play = play;
    from->is_by_legs = player->errand.wish.is_by_legs;
    from->leg = -1;
    from->number = from->count = 0;
    memcpy(from->at, player->steps, sizeof from->at);
    if (from->is_by_legs) {
        from->has_later = next_pulse(from, &from->later);
    } else {
        way_begin(&from->way, &player->source, player->lines, player->bytes, player->errand.bytes, play->least_us);
        from->way.keeps_times = options_keep_times(play->options);
        set_least(from);
    }
}
