#include "sink_catch_up.h"

#include <inttypes.h>
#include <string.h>

#include "sink_link.h"
#include "way.h"

/* They were made from where the record has the motors. */
static void begin_path(struct player *player) {
    for (int axis = 0; axis < 3; axis++) {
        player->path[axis] = in_steps(player->left.nm[axis], player->step_nm[axis]);
    }
    player->has_path = true;
}

/* Counts the lines up to a byte of OUT. Where the machine stands is as --at says, if it does. */
static bool count_to(struct play *play, uint64_t to) {
    static struct way way;
    struct player *player = play->player;
    struct cause why;
    struct move move;
    enum step step = MOVE;
    begin_path(player);
    way_begin(&way, &player->source, player->lines, player->bytes, to, play->least_us);
    while ((step = way_next(&way, &move, &why)) == MOVE) {
        for (int axis = 0; axis < 3 && move.line.kind == 'P'; axis++) {
            player->path[axis] += move.line.step[axis];
            player->steps[axis] += play->options->has_place ? 0 : move.line.step[axis];
        }
        if (!play->options->has_place) {
            backlash_take(&player->backlash, player->screws, &move.line, false);
        }
        if (move.line.kind == 'S') {
            player->outputs = move.line.outputs;
        }
        player->lines = move.lines;
        player->bytes = move.bytes;
    }
    outputs_stop(&player->outputs);
    return step == NO_MORE;
}

/* What is left of OUT begins behind what is counted. */
static void go_on(struct player *player, uint64_t was) {
    bool stays = player->source.limit == was;
    source_go_to(&player->source, player->lines, player->bytes);
    player->source.limit = stays ? player->bytes : player->source.limit;
    player->left.lines = player->lines;
    player->left.bytes = player->bytes;
    player_place(player, player->left.nm);
}

bool sink_catch_up(struct play *play, const struct sink_answer *left) {
    struct player *player = play->player;
    uint64_t own = link_mark(player);
    uint64_t begun = player->bytes - (own - left->mark);
    uint64_t was = player->bytes;
    uint64_t lines = player->lines;
    uint64_t to = 0;
    struct cause why;
    bool is_own = own != WIRE_NO_MARK && left->mark <= own && begun <= was;
    bool goes_on = player->has_left && strcmp(player->left.out, player->out) == 0 && !play->options->begins_anew;
    if (!is_own || !goes_on) {
        return false;
    }
    uint64_t counted = way_count_lines(&player->source, begun, was);
    if (counted > left->lines
        || !way_find_line(&player->source, lines, was, lines + (left->lines - counted), &to, &why)) {
        return false;
    }
    if (to > was && count_to(play, to)) {
        go_on(player, was);
        say("%s: the sink made %" PRIu64 " lines after the record of a player that was killed: they are counted",
            play->options->out, player->lines - lines);
    }
    return true;
}
