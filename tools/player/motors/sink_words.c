#include "sink_words.h"

#include <string.h>

#include "motors.h"
#include "spindle.h"

enum { TICK_NS = 125, PIECE_TICKS = 8000000, MOST_STEP_TICKS = 16000000 };
enum { MOST_WORDS = 2 /* of a move at once */ };

void words_begin(struct words *words, const struct play *play) {
    words->play = play;
    words->first = words->end = 0;
    words->lines = play->player->lines;
    words->bytes = play->player->bytes;
    words->outputs = play->player->outputs;
    words->left_ns = 0;
    words->left_ticks = 0;
    words->last_ramp = UINT64_MAX;
    words->dry = 0;
}

bool words_have_room(const struct words *words, const struct sender *sender) {
    bool has_sender = sender->given - sender->sink.made + MOST_WORDS <= SENDER_ROOM;
    return has_sender && words->left_ticks == 0 && words->end - words->first < SENDER_ROOM;
}

bool words_are_made(const struct words *words) {
    return words->left_ticks == 0 && words->first == words->end;
}

/* The ticks of so many nanoseconds: what is rounded away is made up for by the next word. */
static uint64_t in_ticks(struct words *words, uint64_t ns) {
    int64_t most = INT64_MAX / 4;
    int64_t all = words->left_ns + (ns < (uint64_t)most ? (int64_t)ns : most);
    int64_t ticks = (all + TICK_NS / 2) / TICK_NS;
    if (ticks < WIRE_LEAST_TICKS) {
        words->left_ns = 0;
        return WIRE_LEAST_TICKS;
    }
    words->left_ns = all - ticks * TICK_NS;
    return (uint64_t)ticks;
}

/* A ramp in the sink's squares, which are 1 where words come each 2^21 ticks: 2^24 / 5^12 of one pulse a second. An
 * eighth less, since the last pulse of a stop comes half a ramp before the rest. */
static uint8_t slope_of(uint64_t ramp) {
    uint64_t most = UINT64_C(1) << 36;
    uint64_t squares = ramp >> 16;
    squares = squares < most ? squares : most;
    return wire_slope_byte((squares << 24) / 244140625 / 8 * 7);
}

/* An extra pulse, which never steps all axes, is known by those that it doesn't step. */
static uint8_t bits_of(const struct move *move, bool is_rest) {
    uint8_t bits = is_rest ? WORD_REST : 0;
    for (int axis = 0; axis < 3 && move->line.kind == 'P'; axis++) {
        int step = move->line.step[axis];
        bool is_down = step < 0 || (step == 0 && move->is_extra);
        bits = (uint8_t)(bits | (step != 0) << axis | is_down << (axis + 3));
    }
    return bits;
}

/* A step, or a wait, which begins with a word and goes on by words_top_up where it is long. */
static void give_timed(struct words *words, struct sender *sender, const struct move *move, uint64_t ticks,
                       uint64_t ramp, bool is_rest, bool is_line) {
    bool is_long = ticks > MOST_STEP_TICKS;
    bool is_end = is_rest || is_long || move->line.kind == 'D';
    uint8_t slope = slope_of(ramp < words->last_ramp ? ramp : words->last_ramp);
    slope = is_line ? slope | WIRE_LINE_BIT : slope;
    sender_give(sender, (uint32_t)(is_long ? PIECE_TICKS : ticks), slope, bits_of(move, is_end));
    words->left_ticks = is_long ? ticks - PIECE_TICKS : 0;
    words->last_ramp = is_end ? UINT64_MAX : ramp;
}

static void switch_to(struct words *words, struct sender *sender, const struct outputs *outputs, bool is_line) {
    uint64_t speed = spindle_speed(words->play, outputs->speed);
    const struct sink_outputs all = {speed, (uint8_t)outputs->spindle, (uint8_t)outputs->mist,
                                     (uint8_t)outputs->flood, (uint8_t)outputs->selected, (uint8_t)outputs->slot};
    sender_switch(sender, &all, is_line);
    words->outputs = *outputs;
}

void words_give(struct words *words, struct sender *sender, const struct move *move, uint64_t ns, uint64_t ramp,
                bool is_rest, bool is_line) {
    uint32_t made_after = sender->given;
    if (move->is_done && move->line.kind == 'S') {
        switch_to(words, sender, &move->line.outputs, is_line);
        made_after += 2;
        words->left_ticks = ns > 0 ? in_ticks(words, ns) : 0;
    } else if (move->is_done) {
        give_timed(words, sender, move, in_ticks(words, ns), ramp, is_rest, is_line);
        made_after += 1;
    }
    words->moves[words->end % SENDER_ROOM] = (struct given){made_after, *move};
    words->end++;
    words->lines = move->lines;
    words->bytes = move->bytes;
    words_top_up(words, sender);
}

void words_top_up(struct words *words, struct sender *sender) {
    while (words->left_ticks > 0 && sender_wants(sender)) {
        bool is_long = words->left_ticks > MOST_STEP_TICKS;
        uint32_t ticks = is_long ? PIECE_TICKS : (uint32_t)words->left_ticks;
        sender_give(sender, ticks, 0, WORD_REST);
        words->left_ticks -= ticks;
    }
}

void words_switch_off(struct words *words, struct sender *sender) {
    struct outputs off = words->outputs;
    outputs_stop(&off);
    switch_to(words, sender, &off, false);
}

void words_count(struct words *words, struct play *play, uint32_t made) {
    if (words->first == words->end) {
        return;
    }
    player_lock(play->player);
    const struct given *given = &words->moves[words->first % SENDER_ROOM];
    while (words->first != words->end && made - given->words < 0x80000000) {
        motors_count(play, &given->move);
        words->first++;
        given = &words->moves[words->first % SENDER_ROOM];
    }
    player_unlock(play->player);
}
