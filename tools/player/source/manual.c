#define _GNU_SOURCE
#include "manual.h"

#include <inttypes.h>
#include <stdio.h>
#include <string.h>
#include <sys/eventfd.h>

#include "home.h"
#include "inputs.h"
#include "machine.h"
#include "manual_words.h"
#include "player.h"
#include "scan.h"
#include "schedule.h"

static const char axis_names[] = "XYZ";

static const char *const forms[] = {
    "it takes home N, or home N XZ",
    "it takes jog N X+ RATE, or jog N X+ RATE for MM",
    "it takes seek N Z- RATE within MM",
};

bool manual_is_there(struct player *player) {
    player_lock(player);
    bool is_there = player->manual.is_there;
    player_unlock(player);
    return is_there;
}

void manual_take_tool(struct player *player) {
    player_lock(player);
    if (!player->manual.is_there && !atomic_load(&player->is_untold)) {
        atomic_store(&player->tool, NO_TOOL);
    }
    player_unlock(player);
}

const char NO_RECORD[] = "the record can't be kept";

void manual_end(struct player *player, const char *how) {
    struct manual *manual = &player->manual;
    if (manual->is_there) {
        manual->is_there = false;
        manual->ended = manual->wish.number;
        snprintf(manual->how, HOW_ROOM, "%.*s", HOW_ROOM - 1, how);
    }
}

void manual_leave_path(struct player *player) {
    player_leave_path(player);
    player->is_off = true;
}

void manual_look_at_path(struct player *player) {
    if (player->has_path && memcmp(player->path, player->steps, sizeof player->path) == 0) {
        player_be_on_path(player);
    }
    atomic_store(&player->is_untold, memcmp(player->told_at, player->steps, sizeof player->told_at) != 0);
}

int64_t manual_room(const struct player *player, int axis, int sign) {
    int64_t end = sign > 0 ? player->high_nm[axis] : player->low_nm[axis];
    int64_t nm = (end - player->steps[axis] * player->step_nm[axis]) * sign;
    return nm > 0 ? nm / player->step_nm[axis] : 0;
}

void manual_say_end(const struct player *player, int axis, int sign, struct cause *why) {
    int64_t end = sign > 0 ? player->high_nm[axis] : player->low_nm[axis];
    const int64_t nm[3] = {end};
    char place[PLACE_ROOM];
    place_print(place, sizeof place, nm);
    because(why, "%c ends at %.*s", axis_names[axis], (int)strcspn(place, " "), place);
}

/* What keeps a home from being taken. */
static bool may_home(const struct player *player, const struct manual_wish *wish, struct cause *why) {
    unsigned axes = home_axes(&player->machine->home);
    if (outputs_are_on(&player->outputs)) {
        return because(why, "the spindle or the coolant is on");
    }
    if (axes == 0) {
        return because(why, "the machine's file has no [home]");
    }
    for (int axis = 0; axis < 3; axis++) {
        if ((wish->axes & ~axes) >> axis & 1) {
            return because(why, "%c isn't homed by the machine's file", axis_names[axis]);
        }
    }
    return true;
}

/* What keeps a jog or a seek from being taken. */
static bool may_go(const struct player *player, const struct manual_wish *wish, struct cause *why) {
    const struct inputs *inputs = &player->machine->inputs;
    int64_t room = manual_room(player, wish->axis, wish->sign);
    if (player->alarm != NO_ALARM) {
        return because(why, "the alarm stands: home comes first");
    }
    if (wish->kind == SEEKS && inputs->probe == NO_INPUT) {
        return because(why, "no input is the probe");
    }
    if (wish->kind == SEEKS && outputs_are_on(&player->outputs)) {
        return because(why, "the spindle or the coolant is on");
    }
    if (wish->kind == SEEKS && input_is_on(atomic_load(&player->on), inputs->probe)) {
        return because(why, "the probe is on already");
    }
    if (!wish->is_kept_up && in_steps(wish->length_nm, player->step_nm[wish->axis]) == 0) {
        return because(why, "it is less than a step");
    }
    if (room == 0 || (!wish->is_kept_up && in_steps(wish->length_nm, player->step_nm[wish->axis]) > room)) {
        manual_say_end(player, wish->axis, wish->sign, why);
        return false;
    }
    return true;
}

/* Whether lines are in hand that go on by themselves: not those behind a tool that a person is asked for. The lock is
 * held. */
static bool has_lines(const struct player *player) {
    bool is_dropped = player->alarm != NO_ALARM || player->is_broken;
    bool waits = atomic_load(&player->tool) != NO_TOOL;
    return player->errand.is_there || (!is_dropped && !waits && player->source.received != player->lines);
}

/* Whether a wish can be taken now; false, with the cause. The lock is held. */
static bool may_take(struct player *player, const struct manual_wish *wish, struct cause *why) {
    uint32_t on = atomic_load(&player->on);
    if (player->machine == NULL) {
        return because(why, "the player has no --machine");
    }
    source_take_all(&player->source);
    if (player->awaits_record) {
        return because(why, "%s: another session comes first", NO_RECORD);
    }
    if (player->manual.is_there) {
        return because(why, "a move is under way");
    }
    if (has_lines(player)) {
        return because(why, "lines are in hand");
    }
    if (wish->kind == HOMES && player->alarm == NO_ALARM && atomic_load(&player->tool) != NO_TOOL) {
        return because(why, "a tool is waited for: home once it is in");
    }
    if (input_is_on(on, player->machine->inputs.emergency_stop)) {
        return because(why, "the emergency stop is on");
    }
    if (input_is_on(on, player->machine->inputs.door)) {
        return because(why, "the door is open");
    }
    if (atomic_load(&player->is_held)) {
        return because(why, "held: release comes first");
    }
    return wish->kind == HOMES ? may_home(player, wish, why) : may_go(player, wish, why);
}

/* Takes a wish; false, with the cause, where it can't. */
static bool take(struct player *player, const struct manual_wish *wish, struct cause *why) {
    player_lock(player);
    bool is_taken = may_take(player, wish, why);
    if (is_taken) {
        if (!atomic_load(&player->is_untold)) {
            memcpy(player->told_at, player->steps, sizeof player->told_at);
        }
        player->manual.is_there = true;
        player->manual.wish = *wish;
        player->manual.homes = -1;
        atomic_store(&player->manual_stops, false);
        atomic_store(&player->kept_up_at, schedule_now());
    }
    player_unlock(player);
    eventfd_write(player->wake, 1);
    return is_taken;
}

/* Whether a wish repeats the jog that is under way, which goes on then, or the last one that is over. */
static bool is_repeated(struct player *player, const struct manual_wish *wish) {
    player_lock(player);
    const struct manual *manual = &player->manual;
    bool is_under_way = manual->is_there && manual->wish.number == wish->number && manual->wish.kind == wish->kind;
    bool is_over = manual->ended == wish->number;
    if (is_under_way) {
        atomic_store(&player->kept_up_at, schedule_now());
    }
    player_unlock(player);
    return is_under_way || is_over;
}

/* What moves, for a report. The lock is held. */
static void print_deed(const struct manual *manual, char *text, size_t room) {
    const struct manual_wish *wish = &manual->wish;
    if (!manual->is_there) {
        snprintf(text, room, "stands");
    } else if (wish->kind == HOMES) {
        snprintf(text, room, "home %c", axis_names[manual->homes < 0 ? 0 : manual->homes]);
    } else {
        snprintf(text, room, "%s %c%c", manual_verbs[wish->kind], axis_names[wish->axis], wish->sign > 0 ? '+' : '-');
    }
}

static void print_axes(unsigned axes, char text[5]) {
    size_t size = 0;
    for (int axis = 0; axis < 3; axis++) {
        if (axes >> axis & 1) {
            text[size] = axis_names[axis];
            size++;
        }
    }
    text[size] = '\0';
    if (size == 0) {
        memcpy(text, "none", 5);
    }
}

/* Answers `machine N`. */
static void report(struct player *player, const char *question, char *text, size_t room) {
    static const char *const alarms[] = {"none", "emergency_stop", "limits", "sink"};
    char deed[16];
    char axes[5];
    char on[INPUTS_ROOM];
    char touched[PLACE_ROOM] = "none";
    int64_t nm[3];
    inputs_print(&player->machine->inputs, atomic_load(&player->on), on, sizeof on);
    player_lock(player);
    const struct manual *manual = &player->manual;
    print_deed(manual, deed, sizeof deed);
    print_axes(player->homed, axes);
    for (int axis = 0; axis < 3; axis++) {
        nm[axis] = manual->touched[axis] * player->step_nm[axis];
    }
    if (manual->has_touched) {
        place_print(touched, sizeof touched, nm);
    }
    snprintf(text, room, "%s does %s homed %s alarm %s on %s touched %s ended %" PRIu64 " %s", question, deed, axes,
             alarms[player->alarm], on, touched, manual->ended, manual->ended == 0 ? "none" : manual->how);
    player_unlock(player);
}

static bool is_machine_question(const char *text, size_t size) {
    struct scan scan = {text, text + size};
    uint64_t number = 0;
    return scan_word(&scan, "machine ") && scan_whole(&scan, 20, &number) && scan_is_over(&scan);
}

bool manual_heed(struct player *player, const char *text, size_t size, char *answer, size_t room) {
    struct manual_wish wish;
    static struct cause why;
    answer[0] = '\0';
    if (size == 4 && memcmp(text, "stop", 4) == 0) {
        atomic_store(&player->manual_stops, true);
        return true;
    }
    if (is_machine_question(text, size)) {
        atomic_store(&player->asked_at, schedule_now());
        if (player->machine != NULL) {
            report(player, text, answer, room);
        }
        return true;
    }
    enum reading words = manual_read(text, size, &wish);
    if (words == OTHER_WORDS || (words == WISH_WORDS && is_repeated(player, &wish))) {
        return words != OTHER_WORDS;
    }
    bool is_taken = words == WISH_WORDS ? take(player, &wish, &why) : because(&why, "%s", forms[wish.kind]);
    snprintf(answer, room, "%s %" PRIu64 " %s%.*s", manual_verbs[wish.kind], wish.number,
             is_taken ? "taken" : "refused ", is_taken ? 0 : HOW_ROOM, why.text);
    return true;
}
