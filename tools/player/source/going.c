#define _GNU_SOURCE
#include "going.h"

#include <inttypes.h>
#include <stdio.h>
#include <string.h>
#include <strings.h>
#include <unistd.h>

#include "errand_moves.h"
#include "way.h"

enum { ANSWER_ROOM = 80 };

/* What is typed, up to Enter. */
static void read_answer(char answer[ANSWER_ROOM]) {
    size_t size = 0;
    char letter = 0;
    while (read(STDIN_FILENO, &letter, 1) == 1 && letter != '\n') {
        if (letter != ' ' && letter != '\r' && size + 1 < ANSWER_ROOM) {
            answer[size] = letter;
            size++;
        }
    }
    answer[size] = '\0';
}

/* Whether the answer is yes; `is_no` that it is no. */
static bool agrees(const char *question, bool *is_no) {
    char answer[ANSWER_ROOM];
    say("%s", question);
    read_answer(answer);
    *is_no = strcasecmp(answer, "no") == 0;
    return strcasecmp(answer, "yes") == 0;
}

/* What of spindle and coolant outputs turn on, for people. */
static void print_on(char *text, size_t room, const struct outputs *outputs) {
    char speed[32];
    snprintf(speed, sizeof speed, "%g", (double)outputs->speed / 1e6);
    int size = 0;
    if (outputs->spindle != 0) {
        const char *way = outputs->spindle == 1 ? "clockwise" : "counter-clockwise";
        size = snprintf(text, room, "spindle %s at %s", way, speed);
    }
    snprintf(text + size, room - (size_t)size, "%s%s%s%s", size > 0 && (outputs->mist || outputs->flood) ? ", " : "",
             outputs->mist ? "mist" : "", outputs->mist && outputs->flood ? ", " : "", outputs->flood ? "flood" : "");
}

/* Asks, unless it is told not to; whether outputs are switched on first, after which somebody has to look. False, with
 * the cause, where nobody agrees. */
static bool is_agreed(const struct play *play, struct wish *wish, struct cause *why) {
    char on[128];
    char question[256];
    bool is_no = false;
    print_on(on, sizeof on, &wish->on);
    wish->is_on = outputs_are_on(&wish->on);
    if (play->options->is_agreed) {
        return true;
    }
    if (wish->is_on) {
        snprintf(question, sizeof question, "on was, before line %" PRIu64 ": %s. yes switches it on first, no leaves"
                 " it off", play->player->lines + 1, on);
        wish->is_on = wish->asks_look = agrees(question, &is_no);
    }
    bool goes = wish->asks_look
        || ((is_no || !outputs_are_on(&wish->on))
            && agrees("Nothing is switched, and nothing has moved. Look: are spindle, tool and way as they should be?"
                      " yes goes there, anything else ends", &is_no));
    return goes || because(why, "nothing moved; --yes goes without a question");
}

static void print_point(char *text, size_t room, const int64_t nm[3]) {
    char place[PLACE_ROOM];
    char *rest = NULL;
    place_print(place, sizeof place, nm);
    const char *x = strtok_r(place, " ", &rest);
    const char *y = strtok_r(NULL, " ", &rest);
    snprintf(text, room, "X%s Y%s Z%s", x, y, strtok_r(NULL, " ", &rest));
}

/* Says the way along OUT from the point of a sum, which is moved to its end. */
static bool say_way(const struct play *play, uint64_t to, struct way_sum *sum, bool is_said, struct cause *why) {
    static struct way way;
    const struct player *player = play->player;
    char what[CAUSE_ROOM];
    way_begin(&way, &player->source, player->lines, player->bytes, to, player->least_us);
    way.keeps_times = options_keep_times(play->options) && play->options->lift == NULL;
    if (!way_look(&way, player->step_nm, sum, why)) {
        return false;
    }
    snprintf(what, sizeof what, "%s to line %" PRIu64 " of %s", to < player->bytes ? "back" : "on",
             play->options->goes_to, play->options->out);
    if (is_said) {
        way_say(sum, what);
    }
    return true;
}

/* Says the legs, once the errand is taken. */
static void say_legs(struct play *play, const struct wish *wish) {
    struct way_sum sum = {0};
    char what[CAUSE_ROOM];
    char lift[PLACE_ROOM];
    char point[128];
    const int64_t height[3] = {wish->lift_nm};
    place_print(lift, sizeof lift, height);
    print_point(point, sizeof point, wish->nm);
    legs_look(play, &sum);
    snprintf(what, sizeof what, "by legs over Z %.*s to %s", (int)strcspn(lift, " "), lift, point);
    way_say(&sum, what);
}

/* Where legs end is the end of the sum. */
static bool set_legs(const struct play *play, const struct settings *settings, const struct way_sum *sum,
                     struct wish *wish, struct cause *why) {
    const char *lift = play->options->lift;
    wish->is_by_legs = true;
    if (!nm_read(lift, strlen(lift), &wish->lift_nm)) {
        return because(why, "not a number of millimetres with at most six decimals: %s", lift);
    }
    const char *feed = play->options->feed;
    if (!nm_read(feed, strlen(feed), &wish->nm_per_min) || wish->nm_per_min <= 0) {
        return because(why, "not a rate in millimetres a minute with at most six decimals: %s", feed);
    }
    for (int axis = 0; axis < 3; axis++) {
        wish->nm[axis] = sum->steps[axis] * settings->step_nm[axis];
    }
    return (wish->lift_nm >= settings->low_nm[2] && wish->lift_nm <= settings->high_nm[2])
        || because(why, "--lift %s: it lies outside the travel of Z", lift);
}

/* A cause that speaks of OUT. */
static bool of_out(const struct play *play, const struct cause *what, struct cause *why) {
    return because(why, "%s: %.*s", play->options->out, CAUSE_ROOM - 300, what->text);
}

/* Whether no tool is changed between where the motors are, with such outputs, and the first `to` bytes of OUT. */
static bool keeps_tool(const struct play *play, uint64_t to, const struct outputs *outputs, struct cause *why) {
    const struct player *player = play->player;
    struct outputs before = {0};
    struct tool_change change;
    char what[32] = "take the tool out";
    bool is_back = to < player->bytes;
    if (is_back) {
        way_outputs(&player->source, to, &before);
    }
    if (!way_changes_tool(&player->source, is_back ? play->options->goes_to : player->lines,
                          is_back ? to : player->bytes, is_back ? player->bytes : to,
                          is_back ? before.slot : outputs->slot, &change)) {
        return true;
    }
    if (change.slot != 0) {
        snprintf(what, sizeof what, "put in tool %u", change.slot);
    }
    return because(why, "line %" PRIu64 " asks to %s, and lies on the way: --across-tools goes all the same",
                   change.line, what);
}

/* Says what it would do, asks, and sends the player. */
static bool send_it(struct play *play, const struct settings *settings, struct way_sum *sum, struct cause *why) {
    struct player *player = play->player;
    struct wish wish = {.on = player->left.outputs};
    struct cause what;
    if (!way_find_line(&player->source, player->lines, player->bytes, play->options->goes_to, &wish.bytes, &what)) {
        return of_out(play, &what, why);
    }
    way_outputs(&player->source, player->bytes, &wish.on);
    if (!play->options->crosses_tools && !keeps_tool(play, wish.bytes, &wish.on, &what)) {
        return of_out(play, &what, why);
    }
    player->source.limit = player->bytes;
    bool is_by_legs = play->options->lift != NULL;
    if (is_by_legs && wish.bytes < player->bytes && !say_way(play, wish.bytes, sum, false, &what)) {
        return of_out(play, &what, why);
    }
    if (is_by_legs && !set_legs(play, settings, sum, &wish, why)) {
        return false;
    }
    if (!errand_take(player, &wish, &what)) {
        return of_out(play, &what, why);
    }
    if (is_by_legs) {
        say_legs(play, &wish);
    }
    if ((!is_by_legs || wish.bytes > player->bytes) && !say_way(play, wish.bytes, sum, true, &what)) {
        return of_out(play, &what, why);
    }
    bool goes = is_agreed(play, &wish, why);
    player->errand.wish = wish;
    return goes;
}

bool going_prepare(struct play *play, const struct settings *settings, struct cause *why) {
    struct player *player = play->player;
    struct way_sum sum = {0};
    const char *out = play->options->out;
    bool is_off = false;
    if (player->source.is_pipe) {
        return because(why, "%s: a pipe keeps no lines: --go-to-line is for a file", out);
    }
    if (!player->has_left) {
        char whose[CAUSE_ROOM] = "there is no such record";
        if (player->left.out[0] != '\0') {
            snprintf(whose, sizeof whose, "it speaks of %s, not of %s", player->left.out, out);
        }
        return because(why, "%s: %.*s: where the motors are on the way isn't known", play->options->position,
                       CAUSE_ROOM - 400, whose);
    }
    if (player->is_off) {
        return because(why, "%s: the motors were moved off its path: recover in ngc-operate leads back to it by legs",
                       out);
    }
    for (int axis = 0; axis < 3; axis++) {
        sum.steps[axis] = in_steps(player->left.nm[axis], player->step_nm[axis]);
        is_off |= sum.steps[axis] != player->steps[axis];
    }
    if (is_off && play->options->lift == NULL) {
        char place[PLACE_ROOM];
        char left[128];
        int64_t nm[3];
        player_place(player, nm);
        place_print(place, sizeof place, nm);
        for (int axis = 0; axis < 3; axis++) {
            nm[axis] = sum.steps[axis] * player->step_nm[axis];
        }
        print_point(left, sizeof left, nm);
        return because(why, "--at %s: the motors left the way at %s: --lift Z leads back to it by legs", place, left);
    }
    return send_it(play, settings, &sum, why);
}
