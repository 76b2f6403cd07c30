#define _GNU_SOURCE
#include "engine.h"

#include <stdatomic.h>
#include <string.h>

#include "motors.h"
#include "waits.h"

struct engine engine_beside_out;

enum { FEW = 8 /* moves are taken before each one while it moves: more would make the next one late */ };

void engine_begin(struct engine *engine, const struct move_source *source, struct play *play, void *context) {
    bool has_ramps = play->options->machine != NULL;
    engine->source = source;
    engine->play = play;
    engine->context = context;
    engine->first = engine->end = 0;
    engine->is_all = engine->has_newest = false;
    pace_begin(&engine->pace, has_ramps ? &play->machine.limits : NULL);
}

bool engine_has_moves(const struct engine *engine) {
    return engine->first < engine->end;
}

void engine_end_here(struct engine *engine) {
    pace_end(&engine->pace);
}

const struct move *engine_newest(const struct engine *engine) {
    return &engine->ring[(engine->end - 1) % PACE_ROOM].move;
}

static struct ahead *at(struct engine *engine, uint64_t number) {
    return &engine->ring[number % PACE_ROOM];
}

/* Where nothing is known screws and counts are those of the player, once the motors have made all. */
static void look_at_player(struct engine *engine) {
    struct player *player = engine->play->player;
    engine->place = engine->play->motors->place(engine->play);
    player_lock(player);
    if (engine->place.lines == player->lines) {
        memcpy(engine->screws, player->screws, sizeof engine->screws);
    }
    player_unlock(player);
}

/* Takes the next move, or an extra pulse that comes before it. */
static enum taken take_one(struct engine *engine) {
    const struct backlash *backlash = &engine->play->player->backlash;
    struct ahead *ahead = at(engine, engine->end);
    const struct ahead *newest = &engine->newest;
    struct line extra;
    if (!engine->has_newest) {
        if (!engine_has_moves(engine)) {
            look_at_player(engine);
        }
        enum taken taken = engine->source->next(engine, &engine->newest);
        if (taken != TAKEN) {
            return taken;
        }
    }
    engine->has_newest = newest->move.is_done && backlash_before(backlash, engine->screws, &newest->move.line, &extra);
    ahead->size = engine->has_newest ? 0 : newest->size;
    ahead->move = engine->has_newest
        ? (struct move){true, extra, engine->place.lines, engine->place.bytes, true} : newest->move;
    memcpy(ahead->text, newest->text, ahead->size);
    engine->place = (struct place_in_out){ahead->move.lines, ahead->move.bytes};
    if (ahead->move.is_done) {
        backlash_take(backlash, engine->screws, &ahead->move.line, ahead->move.is_extra);
        pace_push(&engine->pace, &ahead->move.line);
    }
    if (engine->source->heed_known != NULL) {
        engine->source->heed_known(engine, &ahead->move.line);
    }
    engine->end++;
    return TAKEN;
}

/* Whether one more move may be known. */
static bool has_room(struct engine *engine) {
    uint64_t room = engine->source->fills_pacer ? PACE_ROOM : engine->play->motors->room;
    uint64_t count = engine->end - engine->first;
    return count < PACE_ROOM && count < room && !pace_is_full(&engine->pace);
}

/* Takes up to so many moves. */
static enum end take(struct engine *engine, int most) {
    enum taken taken = TAKEN;
    for (int count = 0; count < most && !engine->is_all && taken == TAKEN && has_room(engine); count++) {
        taken = take_one(engine);
    }
    if (taken == NO_MORE_COME) {
        engine->is_all = true;
        engine_end_here(engine);
    }
    if (engine->source->heed_taken != NULL) {
        engine->source->heed_taken(engine);
    }
    return taken == HAS_TO_STOP ? STOPPED : CONTINUES;
}

/* With ramps as much is known as came until the motors want the next move; without them that move alone, before. */
static enum end get_ready(struct engine *engine, bool *is_time) {
    struct play *play = engine->play;
    if (engine->pace.is_plain) {
        enum end end = take(engine, 1);
        *is_time = true;
        return end != CONTINUES || !engine_has_moves(engine) ? end : play->motors->await_next(play, is_time);
    }
    enum end end = play->motors->await_next(play, is_time);
    if (end != CONTINUES || !*is_time) {
        return end;
    }
    end = take(engine, play->is_moving ? FEW : PACE_ROOM);
    if (!play->is_moving) {
        schedule_pause(&play->schedule); /* as long as it took to read */
    }
    return end;
}

/* Gives the next move to the motors, which lasts so long. */
static enum end make(struct engine *engine, uint64_t ns) {
    struct play *play = engine->play;
    const struct ahead *ahead = at(engine, engine->first);
    play->is_moving = !engine->pace.is_at_rest;
    engine->first++;
    if (engine->source->heed_given != NULL) {
        engine->source->heed_given(engine, ahead);
    }
    atomic_store(&play->player->stands_held, false);
    const struct timed timed = {&ahead->move, ahead->text, ahead->size, ns, engine->pace.ramp, !play->is_moving};
    return play->motors->make(play, &timed);
}

/* Gives the next move, if one is to be made: `is_given` says so. */
static enum end give(struct engine *engine, bool *is_given) {
    const struct move_source *source = engine->source;
    const struct move *move = &at(engine, engine->first)->move;
    uint64_t ns = 0;
    bool is_new = false;
    uint64_t wanted = source->wanted(engine);
    *is_given = false;
    if (!engine_has_moves(engine)) {
        return CONTINUES;
    }
    if (move->is_done && wanted != 0 && source->prepare != NULL && pace_is_ready(&engine->pace)) {
        enum end end = source->prepare(engine, &move->line, &is_new);
        if (end != CONTINUES) {
            return end;
        }
        wanted = is_new ? source->wanted(engine) : wanted;
    }
    if (move->is_done && !pace_next(&engine->pace, wanted, &ns)) {
        return CONTINUES;
    }
    *is_given = true;
    return make(engine, ns);
}

/* Goes one round: `is_over` says that no more follows. */
static enum end go_round(struct engine *engine, bool *is_over) {
    const struct move_source *source = engine->source;
    bool is_time = false;
    bool is_given = false;
    enum end end = get_ready(engine, &is_time);
    *is_over = end == CONTINUES && source->is_over != NULL && source->is_over(engine);
    if (end != CONTINUES || *is_over || !is_time) {
        return end;
    }
    end = give(engine, &is_given);
    return end == CONTINUES && !is_given ? source->await(engine, is_over) : end;
}

enum end engine_run(struct engine *engine) {
    enum end end = CONTINUES;
    bool is_over = false;
    while (end == CONTINUES && !is_over) {
        end = go_round(engine, &is_over);
    }
    return end;
}
