#define _GNU_SOURCE
#include "motors.h"

#include <string.h>

#include "waits.h"

void motors_choose(struct play *play) {
    play->motors = play->machine.sink.line[0] != '\0' ? &sink_motors : &pins_motors;
}

void motors_count(struct play *play, const struct move *move) {
    struct player *player = play->player;
    const struct line *line = &move->line;
    bool is_counted = move->is_done && !move->is_extra;
    for (int axis = 0; axis < 3 && is_counted && line->kind == 'P'; axis++) {
        player->steps[axis] += line->step[axis];
    }
    if (move->is_done && line->kind == 'P') {
        backlash_take(&player->backlash, player->screws, line, move->is_extra);
    }
    if (move->is_done && line->kind == 'S') {
        player->outputs = line->outputs;
    }
    player_count(player, move->lines, move->bytes);
    play->counts.pulses += is_counted && line->kind == 'P';
    play->counts.waits += is_counted && line->kind == 'D';
    play->counts.switches += is_counted && line->kind == 'S';
}

enum end note_pins_failed(struct play *play, int error) {
    note_stop(play, "pins");
    because(&play->why, "the pins: %s", strerror(error));
    return FAILED;
}

enum end switch_on(struct play *play, const struct outputs *outputs) {
    struct line line = {.kind = 'S', .outputs = *outputs};
    line.outputs.slot = play->player->outputs.slot;
    return play->motors->switch_on(play, &line);
}
