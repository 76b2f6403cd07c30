#define _GNU_SOURCE
#include "errand_moves.h"

#include <poll.h>
#include <string.h>

#include "engine.h"
#include "motors.h"
#include "moves.h"
#include "off.h"
#include "out_end.h"
#include "waits.h"

static struct moves moves;

void legs_look(struct play *play, struct way_sum *sum) {
    struct move move;
    const struct player *player = play->player;
    moves_begin(&moves, play);
    memcpy(sum->steps, player->steps, sizeof sum->steps);
    sum->low_nm = sum->steps[2] * player->step_nm[2];
    while (moves_next(&moves, &move, &play->why) == MOVE) {
        way_add(sum, &move.line, player->step_nm);
    }
}

static enum taken next(struct engine *engine, struct ahead *ahead) {
    struct cause what;
    ahead->size = 0;
    switch (moves_next(&moves, &ahead->move, &what)) {
    case MOVE:
        return TAKEN;
    case NO_MORE:
        return NO_MORE_COME;
    default:
        if (source_error() != 0) {
            return NONE_NOW; /* it comes to rest first */
        }
        stop_at_line(engine->play, &what);
        return HAS_TO_STOP;
    }
}

static uint64_t wanted(struct engine *engine) {
    struct player *player = engine->play->player;
    bool is_to_rest = is_rest_asked(engine->play) || anew_is_wanted(player) || atomic_load(&player->is_held);
    return is_to_rest ? 0 : pace_wanted(&engine->pace, (unsigned)atomic_load(&player->percent));
}

static enum end prepare(struct engine *engine, const struct line *line, bool *is_new) {
    return off_is_over(engine->play, line, is_new);
}

/* At rest, since it is to, or all is given. */
static enum end await(struct engine *engine, bool *is_over) {
    struct play *play = engine->play;
    *is_over = engine->is_all && !engine_has_moves(engine);
    play->is_moving = false;
    if (!play->motors->await_rest(play)) {
        return STOPPED;
    }
    if (*is_over) {
        return CONTINUES;
    }
    atomic_store(&play->player->stands_held, atomic_load(&play->player->is_held));
    poll(NULL, 0, SLICE_MS / 4);
    schedule_pause(&play->schedule);
    return heed_stops(play) || is_left_held(play) ? STOPPED : CONTINUES;
}

static const struct move_source errand_moves = {.next = next, .wanted = wanted, .prepare = prepare, .await = await,
                                                .fills_pacer = true};

static enum end go(struct play *play) {
    bool is_time = false;
    moves_begin(&moves, play);
    engine_begin(&engine_beside_out, &errand_moves, play, NULL);
    enum end end = engine_run(&engine_beside_out);
    return end == CONTINUES ? play->motors->await_next(play, &is_time) : end; /* as long as the last one takes */
}

/* Reads on from where the motors are, up to the line of the errand. The lock is held. */
static void arrive(struct player *player) {
    const struct errand *errand = &player->errand;
    if (errand->wish.is_by_legs) {
        player->lines = errand->legs_lines;
        player->bytes = errand->legs_bytes;
        player_be_on_path(player);
    }
    player->is_unsure = false; /* whoever sent them was asked where they are */
    atomic_store(&player->is_untold, false); /* OUT's lines lead on from there */
    if (!player->source.is_pipe) {
        source_go_to(&player->source, player->lines, player->bytes);
        player->source.limit = errand->bytes;
    }
}

bool has_errand(struct play *play) {
    player_lock(play->player);
    bool is_there = play->player->errand.is_there;
    player_unlock(play->player);
    return is_there;
}

enum end do_errand(struct play *play) {
    struct player *player = play->player;
    const struct errand *errand = &player->errand;
    enum end end = CONTINUES;
    schedule_pause(&play->schedule);
    off_forget(player); /* it says itself what is on */
    if (errand->wish.is_on) {
        end = switch_on(play, &errand->wish.on);
    }
    if (end == CONTINUES && errand->wish.asks_look && !await_look(play)) {
        end = STOPPED;
    }
    bool moves_back = errand->wish.is_by_legs || errand->bytes < player->bytes;
    if (end == CONTINUES && !errand->wish.is_switch && moves_back) {
        end = await_mark(play) ? go(play) : STOPPED;
        end_mark(play);
    }
    if (end == CONTINUES) {
        player_lock(player);
        if (!errand->wish.is_switch) {
            arrive(player);
        }
        player->errand.is_there = false;
        player_unlock(player);
    }
    return end;
}
