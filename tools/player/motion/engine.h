/* The one way of each move: from where it comes from, past the backlash and through the pacer, to the motors.
 *
 * What makes ramps has to know what comes, so moves are taken ahead. Where there are none one is known before it is
 * due. */
#ifndef ENGINE_H
#define ENGINE_H

#include "pace.h"
#include "play.h"
#include "way.h"

/* A move that is known: of a line of OUT as it stands there; of other moves no text is. */
struct ahead {
    struct move move;
    size_t size;
    char text[LONGEST_LINE + 2];
};

struct engine;

/* What a source of moves gives when it is asked. */
enum taken { TAKEN, NONE_NOW, NO_MORE_COME, HAS_TO_STOP };

/* Where moves come from: OUT's lines, an errand, one axis that goes by itself. */
struct move_source {
    /* The next move, with the counts behind it. */
    enum taken (*next)(struct engine *engine, struct ahead *ahead);

    /* Is told of each move that is known from now on, and of all that were taken at once; NULL where nothing is to be
     * done. */
    void (*heed_known)(struct engine *engine, const struct line *line);
    void (*heed_taken)(struct engine *engine);

    /* Whether it is over: is asked in each round, also while the motors want nothing; NULL. */
    bool (*is_over)(struct engine *engine);

    /* The greatest square that is wanted now; 0 for a rest. */
    uint64_t (*wanted)(struct engine *engine);

    /* Waits for what has to be before a move; `is_new` says that what is wanted may be another. NULL. */
    enum end (*prepare)(struct engine *engine, const struct line *line, bool *is_new);

    /* Is told of a move that was given; NULL. */
    void (*heed_given)(struct engine *engine, const struct ahead *ahead);

    /* Nothing could be given: waits, or says that it is over. */
    enum end (*await)(struct engine *engine, bool *is_over);

    bool fills_pacer; /* as much is known as the pacer has room for, also where a sink has less */
};

struct engine {
    const struct move_source *source;
    struct play *play;
    void *context;        /* of the source */
    struct pace pace;
    uint64_t first;       /* what is known, and isn't given .. */
    uint64_t end;         /* .. up to here */
    bool is_all;          /* no more come */
    int screws[3];        /* as they are behind what is known .. */
    struct place_in_out place; /* .. as the counts are */
    struct ahead newest;  /* the move after it .. */
    bool has_newest;      /* .. where it waits for extra pulses */
    struct ahead ring[PACE_ROOM];
};

/* The one for moves beside OUT's: an errand, or an axis that goes by itself. */
extern struct engine engine_beside_out;

/* At rest, with no move; with ramps where there is a machine. */
void engine_begin(struct engine *engine, const struct move_source *source, struct play *play, void *context);

/* Whether moves are known that aren't given. */
bool engine_has_moves(const struct engine *engine);

/* The newest of these. */
const struct move *engine_newest(const struct engine *engine);

/* What is known is given to its end, and comes to rest there. */
void engine_end_here(struct engine *engine);

/* Makes moves until its source is over. STOPPED or FAILED where the play stops before. */
enum end engine_run(struct engine *engine);

#endif
