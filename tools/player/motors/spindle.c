#define _GNU_SOURCE
#include "spindle.h"

#include <inttypes.h>
#include <poll.h>

#include <string.h>

#include "inputs.h"
#include "motors.h"
#include "off.h"
#include "pins.h"
#include "waits.h"

enum { LOOKS_MS = 5 };

#define NS_PER_S INT64_C(1000000000)

int spindle_most_percent(const struct machine *machine) {
    return machine != NULL && machine->most_speed != 0 ? MOST_SPINDLE_PERCENT : WHOLE_SPEED;
}

uint64_t spindle_speed(const struct play *play, uint64_t speed) {
    uint64_t percent = (uint64_t)atomic_load(&play->player->spindle_percent);
    uint64_t most = play->machine.most_speed;
    uint64_t wanted = speed * percent / WHOLE_SPEED;
    return most != 0 && wanted > most ? most : wanted;
}

int spindle_set_pins(struct play *play, const struct line *line, const char *text, size_t size) {
    char printed[OUTPUTS_ROOM + 1];
    struct line given = *line;
    if (line->kind != 'S') {
        return pins_set(line, text, size);
    }
    play->set = line->outputs;
    play->set_percent = atomic_load(&play->player->spindle_percent);
    given.outputs.speed = spindle_speed(play, line->outputs.speed);
    if (given.outputs.speed == line->outputs.speed) {
        return pins_set(line, text, size);
    }
    size_t length = outputs_print(printed, OUTPUTS_ROOM, &given.outputs);
    printed[length] = '\n';
    return pins_set(&given, printed, length + 1);
}

bool spindle_heed(struct play *play) {
    int percent = atomic_load(&play->player->spindle_percent);
    if (percent == play->set_percent) {
        return true;
    }
    struct outputs now = play->motors->outputs(play);
    now.speed = spindle_speed(play, now.speed);
    bool is_later = false;
    int error = now.spindle != 0 ? play->motors->set_speed(&now, &is_later) : 0;
    if (is_later) {
        return true;
    }
    if (error != 0) {
        note_stop(play, "pins");
        return because(&play->why, "the pins: %s, after line %" PRIu64 ";", strerror(error), play->player->lines);
    }
    play->set_percent = percent;
    return true;
}

/* Waits while it is held; false where the play has to stop. */
static bool wait_held(struct play *play) {
    struct player *player = play->player;
    while (atomic_load(&player->is_held)) {
        atomic_store(&player->stands_held, true);
        poll(NULL, 0, LOOKS_MS);
        if (heed_stops(play) || is_left_held(play)) {
            return false;
        }
    }
    atomic_store(&player->stands_held, false);
    return off_ends_in_wait(play);
}

/* The spindle wasn't at its speed in time: held, or stopped where nobody could release it. */
static bool give_up(struct play *play) {
    struct player *player = play->player;
    int64_t seconds = play->machine.inputs.at_speed_ns / NS_PER_S;
    if (player->socket < 0) {
        note_stop(play, "spindle");
        return because(&play->why, "line %" PRIu64 ": the spindle isn't at its speed after %" PRId64 " s;",
                       player->lines + 1, seconds);
    }
    say("line %" PRIu64 ": the spindle isn't at its speed after %" PRId64 " s: held; release waits again",
        player->lines + 1, seconds);
    atomic_store(&player->is_held, true);
    return wait_held(play);
}

/* Switched off by a person: held, until somebody releases it. */
static bool stay_off(struct play *play) {
    atomic_store(&play->player->is_held, true);
    return wait_held(play);
}

/* Waits until the input says that it is at its speed; false where the play has to stop. */
static bool wait_at_speed(struct play *play) {
    const struct inputs *inputs = &play->machine.inputs;
    int64_t until = schedule_now() + inputs->at_speed_ns;
    bool goes_on = !heed_stops(play);
    while (goes_on
           && (play->player->has_again
               || !input_is_on(atomic_load(&play->player->on), inputs->spindle_at_speed))) {
        poll(NULL, 0, LOOKS_MS);
        goes_on = !heed_stops(play);
        bool is_off = play->player->has_again;
        if (goes_on && (is_off || schedule_now() >= until)) {
            goes_on = is_off ? stay_off(play) : give_up(play);
            until = schedule_now() + inputs->at_speed_ns;
        }
    }
    return goes_on;
}

bool spindle_has_to_speed_up(const struct play *play, const struct outputs *before, const struct outputs *now) {
    bool is_changed = now->spindle != before->spindle || now->speed != before->speed;
    const struct inputs *inputs = &play->machine.inputs;
    return now->spindle != 0 && is_changed && inputs->are_there && inputs->spindle_at_speed != NO_INPUT;
}

bool spindle_wait_at_speed(struct play *play, const struct outputs *before, const struct outputs *now) {
    if (!spindle_has_to_speed_up(play, before, now)) {
        return true;
    }
    atomic_store(&play->player->waits_spindle, true);
    bool is_there = wait_at_speed(play);
    atomic_store(&play->player->waits_spindle, false);
    return is_there;
}

bool spindle_wait(struct play *play, const struct outputs *before, const struct outputs *now) {
    atomic_store(&play->player->turns, now->spindle != before->spindle);
    bool goes_on = !atomic_load(&play->player->turns) || wait_for(play, play->machine.spindle_ns);
    atomic_store(&play->player->turns, false);
    return goes_on && spindle_wait_at_speed(play, before, now);
}
