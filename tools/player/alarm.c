#define _GNU_SOURCE
#include "alarm.h"

#include <errno.h>
#include <inttypes.h>
#include <poll.h>
#include <stdio.h>
#include <string.h>
#include <sys/eventfd.h>

#include "home.h"
#include "inputs.h"
#include "manual.h"
#include "manual_moves.h"
#include "motors.h"
#include "off.h"
#include "waits.h"

static const char *const record_words[] = {"", "emergency", "limit", "lost"};
static const char *const causes[] = {"nothing", "the emergency stop", "a limit", "a lost step sink"};

/* Words of records, of players that didn't hear to its end what their sink made. */
static const char *const doubtful_words[] = {"killed", "deaf", "cut", "sink"};

const char *alarm_word(enum alarm alarm) {
    return record_words[alarm];
}

bool alarm_stands(struct player *player) {
    player_lock(player);
    bool stands = player->alarm != NO_ALARM;
    player_unlock(player);
    return stands;
}

/* Whether the machine's file says how it is homed. */
static bool has_home(const struct player *player) {
    return player->machine != NULL && home_axes(&player->machine->home) != 0;
}

/* Whether somebody can ask this player to home the machine. */
static bool can_home(const struct player *player) {
    return player->socket >= 0 && has_home(player);
}

bool alarm_is_doubtful(const char *word) {
    bool is_doubtful = false;
    for (size_t at = 0; at < sizeof doubtful_words / sizeof doubtful_words[0]; at++) {
        is_doubtful = is_doubtful || strcmp(word, doubtful_words[at]) == 0;
    }
    return is_doubtful;
}

/* The alarm that a record's word stands for. */
static enum alarm alarm_of(const char *word) {
    enum alarm alarm = SINK_LOST;
    while (alarm != NO_ALARM && strcmp(word, record_words[alarm]) != 0) {
        alarm--;
    }
    return alarm_is_doubtful(word) || strcmp(word, "reset") == 0 ? SINK_LOST : alarm;
}

bool alarm_take(struct player *player, const struct options *options, enum alarm alarm, struct cause *why) {
    player->alarm = alarm;
    player->stopped = record_words[alarm];
    return (options->socket != NULL && has_home(player))
        || because(why, "%s: %s stopped the motors, and where they are isn't known: --at X Y Z tells it",
                   options->position, causes[alarm]);
}

bool alarm_take_over(struct player *player, const struct options *options, struct cause *why) {
    const char *word = player->left.stopped;
    enum alarm alarm = alarm_of(word);
    bool has_sink = player->machine != NULL && player->machine->sink.line[0] != '\0';
    return alarm == NO_ALARM || options->has_place || (has_sink && alarm_is_doubtful(word))
        || alarm_take(player, options, alarm, why);
}

bool alarm_begin(const struct play *play, struct cause *why) {
    const struct machine *machine = play->player->machine;
    const struct options *options = play->options;
    uint32_t on = 0;
    if (machine == NULL || !machine->inputs.are_there) {
        return true;
    }
    int error = play->motors->inputs(&machine->inputs, &on);
    if (error != 0) {
        return because(why, "%s: inputs: %s", options->machine,
                       error == ENOTSUP ? "the pins of this player have none" : strerror(error));
    }
    return machine->inputs.door == NO_INPUT || options->socket != NULL
        || because(why, "%s: inputs: the door takes --progress: nobody could say that the machine goes on",
                   options->machine);
}

/* Inputs stop the motors; none, where the sink knows one that is off again: it counts as the emergency stop. */
static void begin_alarm(struct play *play, uint32_t hits) {
    struct player *player = play->player;
    const struct inputs *inputs = &play->machine.inputs;
    bool is_stop = hits == 0 || input_is_on(hits, inputs->emergency_stop);
    char what[32] = "the emergency stop";
    if (!is_stop) {
        const char *limit = inputs_limit_name(inputs, hits);
        snprintf(what, sizeof what, limit[0] != '\0' ? "the limit %s" : "a limit", limit);
    }
    play->motors->stop_dead();
    play->motors->switch_off(play);
    off_forget(player);
    player_lock(player);
    player->alarm = is_stop ? EMERGENCY_STOP : LIMITS;
    player->stopped = alarm_word(player->alarm);
    player->homed = 0;
    player->is_sure = false;
    player_unlock(player);
    because(&play->why, "%s is on, after line %" PRIu64 ": the motors stopped at once;", what, player->lines);
}

/* An open door holds the motors. */
static void look_at_door(struct play *play, uint32_t on) {
    static bool was_open;
    bool is_open = input_is_on(on, play->machine.inputs.door);
    if (is_open) {
        atomic_store(&play->player->is_held, true);
    }
    if (is_open && !was_open) {
        say("%s: the door is open: held; release goes on once it is closed", play->options->out);
    }
    was_open = is_open;
}

bool alarm_look(struct play *play) {
    uint32_t on = 0;
    if (!play->machine.inputs.are_there) {
        return false;
    }
    int error = play->motors->inputs(&play->machine.inputs, &on);
    if (error != 0) {
        note_stop(play, "pins");
        return !because(&play->why, "the inputs: %s, after line %" PRIu64 ";", strerror(error), play->player->lines);
    }
    atomic_store(&play->player->on, on);
    look_at_door(play, on);
    if ((on & play->stops_at) != 0 || (play->stops_at != 0 && play->motors->are_stopped_by_input())) {
        begin_alarm(play, on & play->stops_at);
        return true;
    }
    return false;
}

void alarm_drop_lines(struct player *player) {
    size_t part = 0;
    player_lock(player);
    source_take_all(&player->source);
    source_part(&player->source, &part);
    bool is_any = player->source.received != player->lines || part > 0 || player->errand.is_there;
    player->is_broken = player->is_broken || is_any;
    player->errand.is_there = false;
    if (player->source.is_pipe) {
        player->source.first = player->source.end = 0;
    } else {
        source_go_to(&player->source, player->lines, player->bytes);
        player->source.limit = player->bytes;
    }
    player_unlock(player);
}

/* Whether the session is over, or nobody can home the machine any more. */
static bool is_over(struct play *play) {
    return is_rest_asked(play) || !can_home(play->player) || is_left(play);
}

/* Waits a little for a datagram. */
static void doze(const struct play *play) {
    struct pollfd on = {play->player->wake, POLLIN, 0};
    eventfd_t events;
    if (poll(&on, 1, SLICE_MS) > 0) {
        eventfd_read(play->player->wake, &events);
    }
}

/* The motors stand: says why. */
static void begin_rest(struct play *play) {
    struct player *player = play->player;
    if (play->why.text[0] == '\0') { /* it began so */
        because(&play->why, "%s stopped the motors before, and where they are isn't known;", causes[player->alarm]);
    }
    atomic_store(&player->tool, NO_TOOL);
    atomic_store(&player->stands_held, false);
    play->is_moving = false;
    say("%s: %s spindle and coolant off; %s", play->options->out, play->why.text,
        can_home(player) ? "home the machine" : "start anew with --at X Y Z");
}

/* While the emergency stop is on the motors may be without power: what was homed before isn't any more. */
static void heed_stop_at_rest(struct player *player) {
    player_lock(player);
    if (input_is_on(atomic_load(&player->on), player->machine->inputs.emergency_stop)) {
        player->homed = 0;
    }
    player_unlock(player);
}

/* Looks at the inputs at rest: what is on already is no news. An open door alone holds. */
static void look_at_rest(struct play *play) {
    uint32_t stops_at = play->stops_at;
    play->stops_at = 0;
    atomic_store(&play->player->is_held, false);
    alarm_look(play);
    heed_stop_at_rest(play->player);
    play->stops_at = stops_at;
}

bool alarm_wait(struct play *play) {
    struct player *player = play->player;
    bool goes_on = false;
    begin_rest(play);
    while (!goes_on && !is_over(play)) {
        alarm_drop_lines(player);
        look_at_rest(play);
        enum end end = manual_is_there(player) ? make_manual_move(play) : CONTINUES;
        if (end == FAILED) {
            return false;
        }
        if (end == STOPPED) {
            say("%s: %s spindle and coolant off", play->options->out, play->why.text);
        }
        doze(play);
        if (anew_is_wanted(player) && !anew_begin(play)) {
            return false;
        }
        goes_on = !alarm_stands(player) && !player->is_broken;
    }
    schedule_pause(&play->schedule);
    because(&play->why, "the session is over, and %s",
            alarm_stands(player) ? "the machine isn't homed;" : "lines in hand weren't carried out;");
    return goes_on;
}

bool alarm_takes_place(const struct player *player, const int64_t steps[3]) {
    unsigned homed = has_home(player) ? player->homed : 0;
    bool is_taken = homed != 0 && homed == home_axes(&player->machine->home) && !player->manual.is_there
        && !input_is_on(atomic_load(&player->on), player->machine->inputs.emergency_stop);
    for (int axis = 0; axis < 3; axis++) {
        is_taken = is_taken && ((homed >> axis & 1) == 0 || steps[axis] == player->steps[axis]);
    }
    return is_taken;
}

void alarm_end(struct player *player) {
    player->alarm = NO_ALARM;
    player->stopped = "";
    player->is_unsure = false;
}
