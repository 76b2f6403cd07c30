#include "errand.h"

#include <inttypes.h>
#include <string.h>

#include "player.h"
#include "scan.h"
#include "way.h"

enum { WORD_ROOM = 32 };

/* Passes a word that ends at a blank; its size. */
static size_t pass_word(struct scan *scan) {
    const char *begin = scan->at;
    while (!scan_is_over(scan) && *scan->at != ' ') {
        scan->at++;
    }
    return (size_t)(scan->at - begin);
}

/* Reads "LIFT X Y Z ", of a straight line without LIFT. */
static bool read_legs(struct scan *scan, struct wish *wish) {
    int64_t *const numbers[] = {&wish->lift_nm, &wish->nm[0], &wish->nm[1], &wish->nm[2]};
    for (int at = wish->is_straight ? 1 : 0; at < 4; at++) {
        const char *word = scan->at;
        size_t size = pass_word(scan);
        if (!nm_read(word, size, numbers[at]) || !scan_word(scan, " ")) {
            return false;
        }
    }
    return true;
}

/* Reads outputs, up to the end. */
static bool read_on(const struct scan *scan, struct wish *wish) {
    wish->is_on = true;
    return outputs_read(scan->at, (size_t)(scan->end - scan->at), &wish->on);
}

/* Reads " feed RATE", if it is there. */
static bool read_feed(struct scan *scan, struct wish *wish) {
    if (!scan_word(scan, " feed ")) {
        return true;
    }
    const char *word = scan->at;
    return nm_read(word, pass_word(scan), &wish->nm_per_min) && wish->nm_per_min > 0;
}

bool wish_read(const char *text, size_t size, struct wish *wish) {
    struct scan scan = {text, text + size};
    memset(wish, 0, sizeof *wish);
    wish->is_switch = scan_word(&scan, "switch ");
    if (wish->is_switch) {
        return read_on(&scan, wish);
    }
    wish->is_straight = scan_word(&scan, "straight ");
    wish->is_by_legs = wish->is_straight || scan_word(&scan, "legs ");
    if (wish->is_by_legs ? !read_legs(&scan, wish) : !scan_word(&scan, "along ")) {
        return false;
    }
    if (!scan_whole(&scan, 18, &wish->bytes) || !read_feed(&scan, wish)) {
        return false;
    }
    return scan_word(&scan, " ") ? read_on(&scan, wish) : scan_is_over(&scan);
}

/* One line: the legs before the last one lead nowhere. */
static void set_straight(const struct player *player, const struct wish *wish, struct errand *errand) {
    memcpy(errand->legs[0], player->steps, sizeof errand->legs[0]);
    memcpy(errand->legs[1], player->steps, sizeof errand->legs[1]);
    for (int axis = 0; axis < 3; axis++) {
        errand->legs[2][axis] = in_steps(wish->nm[axis], player->step_nm[axis]);
    }
}

/* Up, over, and down; false, with the cause, where that isn't above both points. */
static bool set_legs(struct player *player, const struct wish *wish, struct errand *errand, struct cause *why) {
    if (wish->is_straight) {
        set_straight(player, wish, errand);
        return true;
    }
    int64_t lift = in_steps(wish->lift_nm, player->step_nm[2]);
    int64_t end = in_steps(wish->nm[2], player->step_nm[2]);
    int64_t highest = (player->steps[2] > end ? player->steps[2] : end) * player->step_nm[2];
    if (wish->lift_nm < highest) {
        char place[2][PLACE_ROOM];
        const int64_t heights[2][3] = {{wish->lift_nm}, {highest}};
        place_print(place[0], PLACE_ROOM, heights[0]);
        place_print(place[1], PLACE_ROOM, heights[1]);
        return because(why, "Z %.*s lies below Z %.*s: legs go up first, and down last", (int)strcspn(place[0], " "),
                       place[0], (int)strcspn(place[1], " "), place[1]);
    }
    for (int axis = 0; axis < 3; axis++) {
        int64_t there = in_steps(wish->nm[axis], player->step_nm[axis]);
        errand->legs[0][axis] = axis < 2 ? player->steps[axis] : lift;
        errand->legs[1][axis] = axis < 2 ? there : lift;
        errand->legs[2][axis] = there;
    }
    return true;
}

bool errand_take(struct player *player, const struct wish *wish, struct cause *why) {
    const struct source *source = &player->source;
    struct errand errand = {.is_there = true, .wish = *wish, .lines = player->lines, .bytes = player->bytes};
    if (player->errand.is_there || source->received != player->lines) {
        return because(why, "it works: lines are in hand");
    }
    if (player->manual.is_there || player->alarm != NO_ALARM || player->is_broken) {
        return because(why, "it was stopped, or moves without lines");
    }
    if (wish->is_switch) {
        player->errand = errand;
        return true;
    }
    if (player->is_off && !wish->is_by_legs) {
        return because(why, "the motors were moved off the path of OUT: legs lead back to it");
    }
    if (source->is_pipe && !wish->is_by_legs) {
        return because(why, "OUT is a pipe, and keeps no lines");
    }
    if (!source->is_pipe && (wish->bytes > source_size(source) || !source_holds(source, wish->bytes))) {
        return because(why, "no line of OUT ends at byte %" PRIu64, wish->bytes);
    }
    if (wish->is_by_legs && !set_legs(player, wish, &errand, why)) {
        return false;
    }
    if (!source->is_pipe) {
        bool is_back = wish->bytes < player->bytes;
        uint64_t low = is_back ? wish->bytes : player->bytes;
        uint64_t count = way_count_lines(source, low, is_back ? player->bytes : wish->bytes);
        errand.bytes = wish->bytes;
        errand.lines = is_back ? player->lines - count : player->lines + count;
    }
    if (wish->is_by_legs) {
        player_leave_path(player);
    }
    errand.legs_lines = errand.lines < player->lines ? errand.lines : player->lines;
    errand.legs_bytes = errand.bytes < player->bytes ? errand.bytes : player->bytes;
    player->errand = errand;
    return true;
}

uint64_t errand_line(const struct player *player) {
    return player->errand.lines != player->lines ? player->errand.lines : player->lines + 1;
}
