#define _GNU_SOURCE
#include "waits.h"

#include <inttypes.h>
#include <poll.h>
#include <stdio.h>
#include <string.h>
#include <sys/eventfd.h>
#include <time.h>

#include "askers.h"
#include "manual_moves.h"
#include "motors.h"
#include "off.h"
#include "person.h"
#include "spindle.h"

enum { SLICE_NS = SLICE_MS * 1000000, SYNC_MS = 1 };

static atomic_int stops; /* how often it is asked to stop */

void stop_soon(void) {
    atomic_fetch_add(&stops, 1);
}

void stop_at_rest(void) {
    int none = 0;
    atomic_compare_exchange_strong(&stops, &none, 1);
}

void note_stop(struct play *play, const char *word) {
    player_lock(play->player);
    if (play->player->alarm == NO_ALARM) {
        play->player->stopped = word;
    }
    player_unlock(play->player);
}

bool is_rest_asked(const struct play *play) {
    return atomic_load(&stops) > 0 || atomic_load(&play->player->record_error) != 0 || source_error() != 0;
}

bool heed_stops(struct play *play) {
    int asked = atomic_load(&stops);
    if (alarm_look(play) || play->motors->have_stopped(play) || !spindle_heed(play)) {
        return true;
    }
    if ((play->is_moving || play->motors->are_moving()) && asked < 2) {
        atomic_store(&play->player->wants_off, false);
        return false;
    }
    if (asked > 0) {
        note_stop(play, play->motors->stop() ? "signal" : "deaf");
        return !because(&play->why, "stopped after line %" PRIu64 ";", play->player->lines);
    }
    if (atomic_load(&play->player->record_error) != 0) {
        note_stop(play, "record");
        return !because(&play->why, "stopped after line %" PRIu64 ": the record can't be kept;", play->player->lines);
    }
    if (source_error() != 0) {
        note_stop(play, "out");
        return !because(&play->why, "stopped after line %" PRIu64 ": it can't be read: %s;", play->player->lines,
                        strerror(source_error()));
    }
    if (anew_is_wanted(play->player)) {
        return !because(&play->why, "another session follows, after line %" PRIu64 ";", play->player->lines);
    }
    return !off_heed(play);
}

/* Waits until a moment; false where the play has to stop before. */
static bool wait_until(struct play *play, int64_t due) {
    int64_t now = schedule_now();
    while (now < due && !heed_stops(play)) {
        int64_t rest = due - now;
        int64_t until = rest > SLICE_NS ? now + SLICE_NS : due;
        struct timespec moment = {(time_t)(until / 1000000000), (long)(until % 1000000000)};
        clock_nanosleep(CLOCK_MONOTONIC, TIMER_ABSTIME, &moment, NULL);
        now = schedule_now();
    }
    return !heed_stops(play);
}

bool wait_until_due(struct play *play) {
    return wait_until(play, play->schedule.due);
}

bool wait_for(struct play *play, int64_t ns) {
    return ns == 0 || wait_until(play, schedule_now() + ns);
}

/* Whether another session follows, and isn't there yet. */
static bool awaits_another(const struct play *play) {
    const struct player *player = play->player;
    return atomic_load(&player->stays)
        && schedule_now() < atomic_load(&player->asked_at) + play->options->off_after_ns;
}

bool is_left(struct play *play) {
    struct player *player = play->player;
    if (awaits_another(play)) {
        return false;
    }
    if (player->source.follows) {
        bool was_asked = atomic_load(&player->asked_at) != 0;
        return atomic_load(&player->has_ended)
            || (outputs_are_on(&player->outputs) && was_asked && askers_are_gone());
    }
    if (!player->source.is_pipe) {
        return true;
    }
    struct pollfd on = {play->player->source.file, POLLIN, 0};
    return poll(&on, 1, 0) > 0 && (on.revents & POLLHUP) != 0;
}

bool have_seconds_passed(struct play *play) {
    int64_t now = schedule_now();
    int64_t asked_at = atomic_load(&play->player->asked_at);
    if (play->left_at == 0) {
        play->left_at = now;
    }
    int64_t since = asked_at > play->left_at ? asked_at : play->left_at;
    return now >= since + play->options->off_after_ns;
}

/* Whether the console died, some time ago. */
static bool is_left_alone(struct play *play) {
    if (atomic_load(&play->player->asked_at) == 0 || source_ends(&play->player->source) || !is_left(play)) {
        play->left_at = 0;
        return false;
    }
    return have_seconds_passed(play);
}

bool is_left_held(struct play *play) {
    if (!is_left_alone(play)) {
        return false;
    }
    note_stop(play, "console");
    return !because(&play->why, "the console is gone, and it is held after line %" PRIu64 ";", play->player->lines);
}

/* No more line of the session is carried out. */
static void break_off(struct player *player) {
    player_lock(player);
    player->is_broken = player->awaits_record = true;
    player->stopped = "";
    manual_end(player, NO_RECORD);
    player_unlock(player);
}

/* Begins another session. A sink isn't to halt any more at a switch to which a move went that was broken off. */
static bool begins_another(struct play *play) {
    return anew_begin(play) && play->motors->begin_anew(play, play->stops_at, 0, 0);
}

bool await_record(struct play *play) {
    struct player *player = play->player;
    if (player->socket < 0 || strcmp(player->stopped, "record") != 0 || atomic_load(&stops) > 0 || !play->motors->switch_off(play)) {
        return false;
    }
    say("%s: %s %s: %s; spindle and coolant off. Once it can, another session goes on", play->options->out,
        play->why.text, play->options->position, strerror(atomic_load(&player->record_why)));
    break_off(player);
    while (atomic_load(&stops) == 0 && !is_left(play)) {
        alarm_drop_lines(player);
        alarm_look(play);
        poll(NULL, 0, SLICE_MS);
        if (anew_is_wanted(player) && atomic_load(&player->record_error) == 0) {
            bool begins = begins_another(play);
            if (begins || atomic_load(&player->record_error) == 0) {
                return begins;
            }
            break_off(player);
        }
    }
    return false;
}

/* Whether the record on the disk is none of before the move. In an alarm it says that nobody knows where they are, and
 * a sink can be asked. */
static bool is_marked(struct player *player) {
    player_lock(player);
    bool is_marked = player->kept.moves == player->moves || player->alarm != NO_ALARM || player->is_over_sink;
    player_unlock(player);
    return is_marked;
}

bool await_mark(struct play *play) {
    struct player *player = play->player;
    player_lock(player);
    player->is_amid_move = true;
    player->moves++;
    player_unlock(player);
    eventfd_write(player->keep, 1);
    while (!is_marked(player)) {
        if (is_rest_asked(play) && heed_stops(play)) { /* inputs are looked at by what moves */
            return false;
        }
        poll(NULL, 0, SYNC_MS);
    }
    return true;
}

void end_mark(struct play *play) {
    player_lock(play->player);
    play->player->is_amid_move = false;
    player_unlock(play->player);
}

/* Whether the console died while a person is asked for a tool. */
static bool is_console_gone(struct play *play, const char *what) {
    if (!is_left_alone(play)) {
        return false;
    }
    note_stop(play, "console");
    return !because(&play->why, "the console is gone, and line %" PRIu64 " asks to %s;", play->player->lines + 1, what);
}

/* Whether nobody can say that the tool is in. */
static bool is_nobody_there(struct play *play, const char *what) {
    if (!person_is_gone() || play->player->socket >= 0) {
        return false;
    }
    note_stop(play, "tool");
    return !because(&play->why, "line %" PRIu64 " asks to %s, and nobody can say that it is done: start the player at a"
                    " terminal or with --progress; --no-ask-tool is for a tool changer;", play->player->lines + 1,
                    what);
}

bool await_look(struct play *play) {
    enum answer answer = NO_ANSWER;
    person_forget();
    say("The outputs are switched, and nothing has moved. Look: are spindle, tool and way as they should be? yes goes"
        " there, anything else ends");
    while (answer == NO_ANSWER) {
        answer = person_answers(SLICE_MS);
        if (heed_stops(play)) {
            return false;
        }
    }
    if (answer != YES) {
        note_stop(play, "look");
        return because(&play->why, "nothing moved;");
    }
    schedule_pause(&play->schedule);
    return true;
}

/* Somebody pressed Enter. */
static void take_tool(struct player *player) {
    manual_take_tool(player);
    if (atomic_load(&player->tool) != NO_TOOL) {
        say("the motors aren't where the lines go on: they have to be back there first");
    }
}

/* Looks a little at what a tool is waited for meanwhile. */
static enum end wait_for_tool(struct play *play, const char *what) {
    if (manual_is_there(play->player)) {
        return make_manual_move(play);
    }
    if (person_has_pressed(SLICE_MS)) {
        take_tool(play->player);
        return CONTINUES;
    }
    return is_nobody_there(play, what) || heed_stops(play) || is_console_gone(play, what) ? STOPPED : CONTINUES;
}

bool asks_for_tool(const struct play *play, const struct line *line) {
    return line->kind == 'S' && line->outputs.slot != play->player->outputs.slot && !play->options->asks_no_tool;
}

enum end await_tool(struct play *play, unsigned slot) {
    char what[32] = "take the tool out";
    if (slot != 0) {
        snprintf(what, sizeof what, "put in tool %u", slot);
    }
    if (!play->options->is_untimed && !wait_until_due(play)) {
        return STOPPED;
    }
    person_forget();
    atomic_store(&play->player->tool, (int)slot);
    say("line %" PRIu64 ": %s, then press Enter", play->player->lines + 1, what);
    enum end end = CONTINUES;
    while (end == CONTINUES && atomic_load(&play->player->tool) != NO_TOOL) {
        end = wait_for_tool(play, what);
    }
    schedule_pause(&play->schedule);
    return end;
}
