/* The motors by a step sink: tools/sink. */
#define _GNU_SOURCE

#include <inttypes.h>
#include <poll.h>
#include <string.h>

#include "beginning.h"
#include "motors.h"
#include "sink_catch_up.h"
#include "sink_link.h"
#include "spindle.h"
#include "times.h"
#include "waits.h"

enum { KEPT_MS = 2 };

static struct sink_inputs session; /* which inputs the sink heeds */

static struct sink_inputs inputs_of(const struct play *play, uint32_t stops, uint32_t halts, uint32_t turned) {
    const struct sink_inputs inputs = {(uint16_t)stops, (uint16_t)halts,
                                       (uint16_t)(play->machine.inputs.low ^ turned),
                                       (uint16_t)play->machine.sink.debounce_us};
    return inputs;
}

/* Whether the motors are where the record says, or where it says with what the sink made after it, which is counted. A
 * sink that stopped dead, or started again since, doesn't tell that. */
static bool is_place_sure(struct play *play, const struct sink_answer *left) {
    bool was_ended = left->state == SINK_NEW || left->fault == FAULT_ASKED;
    if (was_ended && !alarm_is_doubtful(play->player->left.stopped)) {
        return true;
    }
    bool is_told = left->state != SINK_NEW && sink_catch_up(play, left) && left->state != SINK_BROKEN;
    play->player->is_sure = play->player->is_sure || is_told;
    play->player->is_unsure = play->player->is_unsure && !is_told;
    return is_told;
}

/* Where the motors are isn't known: an alarm, unless a person tells it. */
static bool take_loss(struct play *play, struct cause *why) {
    struct player *player = play->player;
    say("%s: what the sink made after the record of its last player isn't known", play->machine.sink.line);
    return player->alarm != NO_ALARM || play->options->has_place
        || alarm_take(player, play->options, SINK_LOST, why);
}

static bool open_sink(struct play *play, struct cause *why) {
    struct sink_answer left;
    if (play->options->pins != NULL) {
        return because(why, "--pins goes without [sink] of %s: the sink has the pins", play->options->machine);
    }
    if (!link_open(play, &left, why)) {
        return false;
    }
    return is_place_sure(play, &left) || take_loss(play, why);
}

static bool begin(struct play *play, struct cause *why) {
    session = inputs_of(play, inputs_stops(&play->machine.inputs), 0, 0);
    play->player->is_over_sink = link_begin(&session, why);
    return play->player->is_over_sink && player_keep_first(play->player, why);
}

/* Waits until the record on the disk has where the motors stand; false where it has to stop before. */
static bool await_kept(struct play *play) {
    while (!player_is_kept(play->player)) {
        if (heed_stops(play)) {
            return false;
        }
        poll(NULL, 0, KEPT_MS);
    }
    return true;
}

static bool begin_anew(struct play *play, uint32_t stops, uint32_t halts, uint32_t turned) {
    struct player *player = play->player;
    /* else the next player, after a loss of power, would take the record for where this session began */
    if (!await_kept(play)) {
        return false;
    }
    session = inputs_of(play, stops, halts, turned);
    if (!link_begin(&session, &play->why)) {
        note_stop(play, "sink");
        return false;
    }
    player_lock(player);
    outputs_stop(&player->outputs);
    player_unlock(player);
    return true;
}

static int inputs_on(const struct inputs *inputs, uint32_t *on) {
    *on = link_look().inputs ^ (uint32_t)(session.low ^ inputs->low);
    return 0;
}

static bool are_touched(int64_t steps[3]) {
    struct link_state state = link_look();
    if (state.state == SINK_RUNS || (state.fault != FAULT_TOUCHED && !state.is_touched)) {
        return false;
    }
    memcpy(steps, state.touched, sizeof state.touched);
    return true;
}

static bool are_stopped_by_input(void) {
    const char *word = NULL;
    const char *text = NULL;
    return link_is_over(&word, &text) && link_look().fault == FAULT_INPUT;
}

static bool are_moving(void) {
    const char *word = NULL;
    const char *text = NULL;
    return !link_look().is_done && !link_is_over(&word, &text);
}

static bool have_stopped(struct play *play) {
    const char *word = NULL;
    const char *text = NULL;
    if (!link_is_over(&word, &text)) {
        return false;
    }
    struct link_state state = link_look();
    if (state.fault == FAULT_TOUCHED && session.halts != 0) {
        return false;
    }
    bool is_lost = state.state == SINK_BROKEN || state.fault == FAULT_NONE;
    note_stop(play, word);
    player_lock(play->player);
    outputs_stop(&play->player->outputs);
    play->player->homed = is_lost ? 0 : play->player->homed;
    play->player->is_sure = play->player->is_sure && !is_lost;
    player_unlock(play->player);
    return !because(&play->why, "%s, after line %" PRIu64 "%s;", text, play->player->lines,
                    is_lost ? ": where the motors are isn't sure" : "");
}

static bool stop(void) {
    if (!are_moving()) {
        return true;
    }
    link_stop(false);
    uint8_t state = link_look().state;
    return state == SINK_STOPPED || state == SINK_BROKEN;
}

static void stop_dead(void) {
    if (are_moving()) {
        link_stop(true);
    }
}

static void doze(void) {
    link_await(SLICE_MS / 4);
}

static enum end await_next(struct play *play, bool *is_time) {
    if (heed_stops(play)) {
        return STOPPED;
    }
    *is_time = link_wants();
    if (!*is_time) {
        doze();
    }
    return CONTINUES;
}

static bool await_rest(struct play *play) {
    while (are_moving()) {
        if (heed_stops(play)) {
            return false;
        }
        link_await(SLICE_MS);
    }
    return !heed_stops(play);
}

/* Waits, behind a switch that was given, until the spindle is at its speed; false where the play has to stop before. */
static bool await_speed(struct play *play, const struct outputs *before, const struct outputs *outputs) {
    return !spindle_has_to_speed_up(play, before, outputs)
        || (await_rest(play) && spindle_wait_at_speed(play, before, outputs));
}

static enum end make(struct play *play, const struct timed *timed) {
    const struct outputs before = link_outputs();
    const struct line *line = &timed->move->line;
    bool is_of_out = timed->size > 0;
    bool is_switch = timed->move->is_done && line->kind == 'S';
    bool turns = is_switch && line->outputs.spindle != before.spindle;
    if (is_of_out) {
        times_add(play->schedule.due - play->schedule.begun, timed->text, timed->size);
        schedule_begin(&play->schedule, timed->ns);
    }
    link_give(timed->move, turns ? (uint64_t)play->machine.spindle_ns : timed->ns, timed->ramp, timed->is_rest,
              is_of_out);
    return !is_switch || await_speed(play, &before, &line->outputs) ? CONTINUES : STOPPED;
}

static struct place_in_out place(const struct play *play) {
    (void)play;
    return link_place();
}

static struct outputs outputs(const struct play *play) {
    (void)play;
    return link_outputs();
}

/* Gives outputs, at rest: no line of OUT says so. */
static void give_outputs(const struct line *line, uint64_t ns) {
    const struct place_in_out at = link_place();
    const struct move move = {true, *line, at.lines, at.bytes, false};
    link_give(&move, ns, 0, true, false);
}

static enum end switch_sink_on(struct play *play, const struct line *line) {
    const struct outputs before = play->player->outputs;
    bool turns = line->outputs.spindle != before.spindle;
    bool is_time = false;
    enum end end = CONTINUES;
    while (!is_time && end == CONTINUES) {
        end = await_next(play, &is_time);
    }
    if (end != CONTINUES || heed_stops(play)) {
        return STOPPED;
    }
    give_outputs(line, turns ? (uint64_t)play->machine.spindle_ns : 0);
    return await_rest(play) && await_speed(play, &before, &line->outputs) ? CONTINUES : STOPPED;
}

static bool set_again(struct play *play, const struct line *line) {
    (void)play;
    give_outputs(line, 0);
    return true;
}

static int set_speed(const struct outputs *now, bool *is_later) {
    *is_later = !link_speed(now->speed);
    return 0;
}

static bool switch_off(struct play *play) {
    bool is_off = link_switch_off();
    player_lock(play->player);
    outputs_stop(&play->player->outputs);
    player_unlock(play->player);
    if (!is_off) {
        say("%s: %s the sink doesn't say that spindle and coolant are off: switch them off by hand", play->options->out,
            play->why.text);
    }
    return is_off;
}

static void end(void) {
    uint64_t dry = link_look().dry;
    link_close();
    if (dry > 0) {
        say("the sink ran dry %" PRIu64 " time%s: the motors came to rest, and went on once more came", dry,
            dry > 1 ? "s" : "");
    }
}

const struct motors sink_motors = {
    .keep_time = false,
    .room = LINK_LINES,
    .open = open_sink,
    .begin = begin,
    .begin_anew = begin_anew,
    .await_next = await_next,
    .make = make,
    .await_rest = await_rest,
    .are_moving = are_moving,
    .doze = doze,
    .place = place,
    .outputs = outputs,
    .switch_on = switch_sink_on,
    .set_again = set_again,
    .set_speed = set_speed,
    .switch_off = switch_off,
    .inputs = inputs_on,
    .are_touched = are_touched,
    .are_stopped_by_input = are_stopped_by_input,
    .have_stopped = have_stopped,
    .stop = stop,
    .stop_dead = stop_dead,
    .end = end,
};
