#define _GNU_SOURCE
#include "off.h"

#include <inttypes.h>
#include <string.h>
#include <sys/eventfd.h>

#include "inputs.h"
#include "motors.h"
#include "waits.h"

/* Whether the motors stand, and go on only once somebody says so, a line comes, or the spindle has its time. The lock
 * is held. */
static bool stands(const struct player *player) {
    bool has_nothing = !player->errand.is_there && !player->manual.is_there
        && player->source.received == player->lines;
    return has_nothing || atomic_load(&player->stands_held) || atomic_load(&player->tool) != NO_TOOL
        || atomic_load(&player->waits_spindle) || atomic_load(&player->turns);
}

void off_take(struct player *player) {
    player_lock(player);
    source_take_all(&player->source);
    if (stands(player)) {
        atomic_store(&player->wants_off, true);
    }
    player_unlock(player);
    eventfd_write(player->wake, 1);
}

bool off_heed(struct play *play) {
    struct player *player = play->player;
    if (!atomic_exchange(&player->wants_off, false)) {
        return true;
    }
    player_lock(player);
    bool is_still = stands(player);
    player_unlock(player);
    const struct outputs set = play->motors->outputs(play);
    if (!is_still || !outputs_are_on(&set)) {
        return true;
    }
    if (!play->motors->switch_off(play)) {
        return because(&play->why, "spindle and coolant can't be switched off, after line %" PRIu64 ";",
                       player->lines);
    }
    player_lock(player);
    player->again = set;
    player->has_again = true;
    player_unlock(player);
    return true;
}

void off_forget(struct player *player) {
    player_lock(player);
    player->has_again = false;
    player_unlock(player);
}

/* Takes what was switched off; whether something was. This thread alone sets it. */
static bool take_again(struct player *player, struct outputs *again) {
    if (!player->has_again) {
        return false;
    }
    *again = player->again;
    off_forget(player);
    return true;
}

enum end off_is_over(struct play *play, const struct line *line, bool *is_back) {
    struct outputs again;
    *is_back = false;
    if (!take_again(play->player, &again) || line->kind == 'S') {
        return CONTINUES;
    }
    *is_back = true;
    return switch_on(play, &again);
}

bool off_ends_in_wait(struct play *play) {
    struct line line = {.kind = 'S'};
    return !take_again(play->player, &line.outputs) || play->motors->set_again(play, &line);
}

void anew_take(struct player *player) {
    player_lock(player);
    if (!player->manual.is_there && !source_ends(&player->source)) {
        atomic_store(&player->wants_anew, true);
        atomic_store(&player->stays, true);
    }
    player_unlock(player);
    eventfd_write(player->wake, 1);
}

bool anew_is_wanted(struct player *player) {
    return atomic_load(&player->wants_anew);
}

/* Lets go of what is in hand, and of what stands in OUT. The lock is held. */
static void drop_all(struct player *player) {
    struct source *source = &player->source;
    source_take_all(source);
    source_go_to(source, player->lines, player->bytes);
    source->limit = source->follows ? player->bytes : source->limit;
    player->errand.is_there = false;
    player->is_broken = player->awaits_record = false;
    player->has_again = false;
    atomic_store(&player->last, UINT64_MAX);
}

bool anew_begin(struct play *play) {
    struct player *player = play->player;
    const struct machine *machine = player->machine;
    const struct outputs set = play->motors->outputs(play);
    if ((outputs_are_on(&set) || outputs_are_on(&player->outputs)) && !play->motors->switch_off(play)) {
        return false;
    }
    player_lock(player);
    drop_all(player);
    player_unlock(player);
    bool is_open = machine != NULL && input_is_on(atomic_load(&player->on), machine->inputs.door);
    atomic_store(&player->is_held, is_open);
    atomic_store(&player->stands_held, false);
    atomic_store(&player->tool, NO_TOOL);
    play->why.text[0] = '\0';
    play->left_at = 0;
    schedule_pause(&play->schedule);
    atomic_store(&player->wants_anew, false);
    return true;
}
