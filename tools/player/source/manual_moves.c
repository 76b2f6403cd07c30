/* Jog and seek: one axis goes with ramps, until it is to rest. */
#define _GNU_SOURCE
#include "manual_moves.h"

#include <stdio.h>
#include <string.h>

#include "axis_moves.h"
#include "homing.h"
#include "inputs.h"
#include "motors.h"
#include "waits.h"

#define KEPT_UP_NS INT64_C(250000000)
#define ASKED_NS INT64_C(1000000000)

int64_t axis_place(struct play *play, int axis) {
    player_lock(play->player);
    int64_t steps = play->player->steps[axis];
    player_unlock(play->player);
    return steps;
}

/* Whether nobody keeps the move going any more. */
static bool is_left_alone_now(const struct player *player, struct cause *how) {
    int64_t now = schedule_now();
    int64_t kept_up_at = atomic_load(&player->kept_up_at);
    int64_t asked_at = atomic_load(&player->asked_at);
    bool is_kept_up = player->manual.wish.is_kept_up;
    int64_t since = asked_at > kept_up_at && !is_kept_up ? asked_at : kept_up_at;
    if (now - since <= (is_kept_up ? KEPT_UP_NS : ASKED_NS)) {
        return false;
    }
    because(how, "%s", is_kept_up ? "the key isn't held any more" : "nobody asks any more");
    return true;
}

bool manual_goes_on(struct play *play, struct cause *how) {
    const struct player *player = play->player;
    if (atomic_load(&player->manual_stops) || is_rest_asked(play)) {
        return because(how, "stopped");
    }
    if (input_is_on(atomic_load(&player->on), play->machine.inputs.door)) {
        return because(how, "the door is open");
    }
    if (atomic_load(&player->is_held)) {
        return because(how, "held");
    }
    return !is_left_alone_now(player, how);
}

/* What a jog or a seek looks at. */
struct course {
    struct cause *how;
    bool seeks;
};

/* Notes where the probe is touched, and ends there. */
static bool looks_for_probe(struct play *play) {
    struct player *player = play->player;
    if (!input_is_on(atomic_load(&player->on), play->machine.inputs.probe)) {
        return true;
    }
    player_lock(player);
    memcpy(player->manual.touched, player->steps, sizeof player->steps);
    player->manual.has_touched = true;
    player_unlock(player);
    return false;
}

static bool goes_on(struct play *play, void *context) {
    struct course *course = context;
    return manual_goes_on(play, course->how) && (!course->seeks || looks_for_probe(play));
}

/* Goes, and notes where a sink was halted by the probe. */
static enum end travel_until_probe(struct play *play, const struct travel *way) {
    struct player *player = play->player;
    int64_t touched[3];
    if (!play->motors->begin_anew(play, play->stops_at, input_bit(play->machine.inputs.probe), 0)) {
        return STOPPED;
    }
    enum end end = travel(play, way);
    if (play->motors->are_touched(touched)) {
        player_lock(player);
        memcpy(player->manual.touched, touched, sizeof touched);
        player->manual.has_touched = true;
        player_unlock(player);
    }
    return end == CONTINUES && !play->motors->begin_anew(play, play->stops_at, 0, 0) ? STOPPED : end;
}

/* Why a travel ended that went to its end. */
static void say_end(struct play *play, const struct manual_wish *wish, struct cause *how) {
    char length[PLACE_ROOM];
    const int64_t nm[3] = {wish->length_nm};
    place_print(length, sizeof length, nm);
    if (wish->kind == SEEKS && !play->player->manual.has_touched) {
        because(how, "the probe isn't touched within %.*s mm", (int)strcspn(length, " "), length);
    } else if (wish->is_kept_up) {
        manual_say_end(play->player, wish->axis, wish->sign, how);
    }
}

static enum end go(struct play *play, const struct manual_wish *wish, struct cause *how) {
    struct player *player = play->player;
    struct course course = {how, wish->kind == SEEKS};
    player_lock(player);
    int64_t room = manual_room(player, wish->axis, wish->sign);
    player->manual.has_touched = player->manual.has_touched && wish->kind != SEEKS;
    player_unlock(player);
    struct travel way = {
        .axis = wish->axis,
        .sign = wish->sign,
        .pulses = wish->is_kept_up ? room : in_steps(wish->length_nm, player->step_nm[wish->axis]),
        .nm_per_min = wish->nm_per_min,
        .goes_on = goes_on,
        .context = &course,
    };
    how->text[0] = '\0';
    enum end end = course.seeks ? travel_until_probe(play, &way) : travel(play, &way);
    if (end == CONTINUES && how->text[0] == '\0') {
        because(how, "done");
        say_end(play, wish, how);
    }
    return end;
}

/* Notes how the move ended. */
static void note_end(struct play *play, const struct cause *how) {
    struct player *player = play->player;
    player_lock(player);
    manual_look_at_path(player);
    manual_end(player, how->text);
    player->is_amid_move = false;
    player_unlock(player);
}

enum end make_manual_move(struct play *play) {
    static struct cause how;
    struct player *player = play->player;
    player_lock(player);
    struct manual_wish wish = player->manual.wish;
    player_unlock(player);
    because(&how, "done");
    enum end end = STOPPED;
    if (await_mark(play)) {
        end = wish.kind == HOMES ? home_axes_now(play, wish.axes, &how) : go(play, &wish, &how);
    }
    play->is_moving = false;
    if (end != CONTINUES) {
        because(&how, "%.*s", (int)strcspn(play->why.text, ";"), play->why.text);
    }
    note_end(play, &how);
    schedule_pause(&play->schedule);
    return end;
}
