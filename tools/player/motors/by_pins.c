/* The motors by pins: pins.h. */
#define _GNU_SOURCE
#include <errno.h>
#include <inttypes.h>
#include <stdio.h>
#include <string.h>

#include "motors.h"
#include "pins.h"
#include "spindle.h"
#include "times.h"
#include "waits.h"

static bool open_pins(struct play *play, struct cause *why) {
    (void)play;
    (void)why;
    return true; /* they are, by pins_begin */
}

static bool begin_anew(struct play *play, uint32_t stops, uint32_t halts, uint32_t turned) {
    (void)play;
    (void)stops;
    (void)halts;
    (void)turned;
    return true;
}

static enum end await_next(struct play *play, bool *is_time) {
    *is_time = play->options->is_untimed ? !heed_stops(play) : wait_until_due(play);
    return *is_time ? CONTINUES : STOPPED;
}

/* A line for the pins, as OUT would have it; its size. */
static size_t print_pulse(char text[LONGEST_LINE], const struct line *line) {
    const int *step = line->step;
    return (size_t)snprintf(text, LONGEST_LINE, "P %d %d %d %" PRIu64 "\n", step[0], step[1], step[2], line->us);
}

/* Gives a line to the pins now. */
static enum end set(struct play *play, const struct timed *timed) {
    char printed[LONGEST_LINE];
    const struct line *line = &timed->move->line;
    struct schedule *schedule = &play->schedule;
    bool is_of_out = timed->size > 0;
    size_t size = is_of_out ? timed->size : print_pulse(printed, line);
    if (is_of_out) {
        times_add(schedule->due - schedule->begun, timed->text, size);
    }
    schedule_begin(schedule, timed->ns);
    int error = spindle_set_pins(play, line, is_of_out ? timed->text : printed, size);
    return error == 0 ? CONTINUES : note_pins_failed(play, error);
}

/* Waits behind a switch for the spindle. */
static enum end await_spindle(struct play *play, const struct line *line) {
    struct player *player = play->player;
    const struct outputs before = player->outputs;
    player_lock(player);
    player->outputs = line->outputs; /* as the spindle turns already */
    player_unlock(player);
    bool is_there = spindle_wait(play, &before, &line->outputs);
    if (is_there) {
        schedule_pause(&play->schedule); /* as long as the tool and the spindle took */
    }
    return is_there ? CONTINUES : STOPPED;
}

static enum end make(struct play *play, const struct timed *timed) {
    struct player *player = play->player;
    const struct move *move = timed->move;
    enum end end = move->is_done ? set(play, timed) : CONTINUES;
    if (end == CONTINUES && move->is_done && move->line.kind == 'S') {
        end = await_spindle(play, &move->line);
    }
    if (end == CONTINUES) {
        player_lock(player);
        motors_count(play, move);
        if (move->is_done && move->line.kind == 'S' && player->has_again) { /* off amid the wait for the spindle */
            outputs_stop(&player->outputs);
        }
        player_unlock(player);
    }
    return end;
}

static bool await_rest(struct play *play) {
    return !heed_stops(play);
}

static bool are_moving(void) {
    return false; /* each move is made as it is given */
}

static void doze(void) {
}

static struct place_in_out place(const struct play *play) {
    struct player *player = play->player;
    player_lock(player);
    const struct place_in_out found = {player->lines, player->bytes};
    player_unlock(player);
    return found;
}

static struct outputs outputs(const struct play *play) {
    return play->set;
}

/* Gives outputs to the pins. */
static int set_outputs(struct play *play, const struct line *line) {
    char text[OUTPUTS_ROOM + 1];
    size_t size = outputs_print(text, OUTPUTS_ROOM, &line->outputs);
    text[size] = '\n';
    int error = spindle_set_pins(play, line, text, size + 1);
    if (error == 0) {
        player_lock(play->player);
        play->player->outputs = line->outputs;
        player_unlock(play->player);
    }
    return error;
}

static enum end switch_pins_on(struct play *play, const struct line *line) {
    const struct outputs before = play->player->outputs;
    int error = set_outputs(play, line);
    if (error != 0) {
        return note_pins_failed(play, error);
    }
    bool is_on = spindle_wait(play, &before, &line->outputs);
    schedule_pause(&play->schedule);
    return is_on ? CONTINUES : STOPPED;
}

static bool set_again(struct play *play, const struct line *line) {
    int error = set_outputs(play, line);
    if (error != 0) {
        note_stop(play, "pins");
        return because(&play->why, "the pins: %s, after line %" PRIu64 ";", strerror(error), play->player->lines);
    }
    return true;
}

static int set_speed(const struct outputs *now, bool *is_later) {
    *is_later = false;
    return pins_speed(now);
}

static bool switch_off(struct play *play) {
    struct player *player = play->player;
    int error = pins_off();
    if (error != 0) {
        note_stop(play, "pins");
        say("player: the pins: %s; switch spindle and coolant off by hand", strerror(error));
        return false;
    }
    outputs_stop(&play->set);
    player_lock(player);
    outputs_stop(&player->outputs);
    player_unlock(player);
    return true;
}

static int inputs(const struct inputs *of, uint32_t *on) {
    uint32_t levels = 0;
    int error = pins_inputs(&levels);
    *on = error == 0 ? (levels ^ of->low) & ((UINT32_C(1) << MOST_INPUTS) - 1) : 0;
    return error;
}

static bool are_touched(int64_t steps[3]) {
    (void)steps;
    return false;
}

static bool are_stopped_by_input(void) {
    return false;
}

static bool have_stopped(struct play *play) {
    (void)play;
    return false;
}

static bool stop(void) {
    return true;
}

static void stop_dead(void) {
}

static void end(void) {
}

const struct motors pins_motors = {
    .keep_time = true,
    .room = UINT64_MAX,
    .open = open_pins,
    .begin = open_pins,
    .begin_anew = begin_anew,
    .await_next = await_next,
    .make = make,
    .await_rest = await_rest,
    .are_moving = are_moving,
    .doze = doze,
    .place = place,
    .outputs = outputs,
    .switch_on = switch_pins_on,
    .set_again = set_again,
    .set_speed = set_speed,
    .switch_off = switch_off,
    .inputs = inputs,
    .are_touched = are_touched,
    .are_stopped_by_input = are_stopped_by_input,
    .have_stopped = have_stopped,
    .stop = stop,
    .stop_dead = stop_dead,
    .end = end,
};
