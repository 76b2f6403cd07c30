#include "sender.h"

#include <string.h>

/* Whether a count, or a session's number, is before another one. */
static bool is_before(uint32_t one, uint32_t other) {
    return one - other >= 0x80000000;
}

void sender_begin(struct sender *sender, uint32_t token, const struct sink_inputs *inputs, uint32_t window_ticks,
                  uint64_t mark) {
    memset(sender, 0, sizeof *sender);
    sender->token = token;
    sender->inputs = *inputs;
    sender->window_ticks = window_ticks;
    sender->mark = mark;
}

void sender_listen(struct sender *sender) {
    memset(sender, 0, sizeof *sender);
    sender->listens = true;
}

static struct sender_word *word_at(struct sender *sender, uint32_t index) {
    return &sender->words[index % SENDER_ROOM];
}

/* Whether there is a session, and room for so many words. */
static bool has_room(const struct sender *sender, uint32_t count) {
    uint32_t in_hand = sender->given - sender->sink.made;
    return sender->state == SENDER_LINKED && in_hand <= SENDER_ROOM - count;
}

/* The square of a word of so many ticks, rounded up. */
static uint64_t square_of(uint32_t ticks) {
    uint64_t square = (uint64_t)ticks * ticks;
    return ((UINT64_C(1) << 42) + square - 1) / square;
}

static uint64_t greatest(uint64_t one, uint64_t other) {
    return one > other ? one : other;
}

static void put(struct sender *sender, uint32_t value, uint8_t bits) {
    bool is_output = (bits & WORD_OUTPUT) != 0;
    bool is_speed = wire_is_speed(bits);
    struct sender_word *word = word_at(sender, sender->given);
    *word = (struct sender_word){value, bits, sender->due, 0};
    sender->due += is_speed ? 0 : is_output ? WIRE_LEAST_TICKS : wire_ticks(value);
    sender->rises += is_output ? 0 : wire_slope(value);
    if ((bits & WORD_REST) != 0) {
        sender->rises = greatest(sender->rises, sender->most_wanted);
    } else if (!is_speed) {
        word->wanted = sender->rises + square_of(wire_ticks(value));
    }
    sender->most_wanted = greatest(sender->most_wanted, word->wanted);
    sender->given++;
}

/* Looks at the words up to the end of the window. */
static void look_ahead(struct sender *sender) {
    uint32_t made = sender->sink.made;
    if (is_before(sender->looked, made)) {
        sender->looked = made;
    }
    uint64_t end = (made == sender->given ? sender->due : word_at(sender, made)->due) + sender->window_ticks;
    while (sender->looked != sender->given && word_at(sender, sender->looked)->due < end) {
        sender->now_wanted = greatest(sender->now_wanted, word_at(sender, sender->looked)->wanted);
        sender->looked++;
    }
}

bool sender_wants(struct sender *sender) {
    if (!has_room(sender, 1)) {
        return false;
    }
    look_ahead(sender);
    return sender->looked == sender->given || sender->rises < sender->now_wanted;
}

enum sender_give sender_give(struct sender *sender, uint32_t ticks, uint8_t slope, uint8_t bits) {
    uint32_t value = ticks | (uint32_t)slope << 24;
    bool is_step = ticks <= WIRE_MOST_TICKS && (bits & WORD_OUTPUT) == 0;
    if (!is_step || !wire_is_word(value, bits)) {
        return GIVE_REFUSED;
    }
    if (!has_room(sender, 1)) {
        return GIVE_LATER;
    }
    put(sender, value, bits);
    return GIVE_TAKEN;
}

static bool are_same(const struct sink_outputs *one, const struct sink_outputs *other) {
    return one->speed == other->speed && one->spindle == other->spindle && one->mist == other->mist
        && one->flood == other->flood && one->selected == other->selected && one->slot == other->slot;
}

enum sender_give sender_switch(struct sender *sender, const struct sink_outputs *outputs, bool is_line) {
    uint8_t bits = WORD_OUTPUT | WORD_SWITCH | WORD_REST;
    uint32_t low = 0;
    uint32_t switches = 0;
    struct sink_outputs understood;
    wire_put_outputs(&low, &switches, outputs);
    wire_get_outputs(low, switches, &understood);
    if (!are_same(outputs, &understood) || !wire_is_word(switches, bits)) {
        return GIVE_REFUSED;
    }
    if (!has_room(sender, 2)) {
        return GIVE_LATER;
    }
    put(sender, low, WORD_OUTPUT | WORD_REST);
    put(sender, switches, is_line ? bits | WORD_LINE : bits);
    return GIVE_TAKEN;
}

enum sender_give sender_speed(struct sender *sender, uint64_t speed) {
    if (speed >> 44 != 0) {
        return GIVE_REFUSED;
    }
    if (!has_room(sender, 1)) {
        return GIVE_LATER;
    }
    put(sender, (uint32_t)(speed * 128 / 1000000), WORD_OUTPUT | WORD_SPEED);
    return GIVE_TAKEN;
}

/* Puts the next words into a frame; returns its size. */
static size_t put_words(struct sender *sender, uint8_t *body) {
    size_t size = WIRE_HEAD;
    body[0] = KIND_WORDS;
    wire_put32(body + 1, sender->session);
    wire_put32(body + 5, sender->sent);
    while (sender->sent != sender->given && size < WIRE_HEAD + WIRE_WORDS * WIRE_WORD) {
        const struct sender_word *word = word_at(sender, sender->sent);
        wire_put32(body + size, word->value);
        body[size + 4] = word->bits;
        sender->sent++;
        size += WIRE_WORD;
    }
    if (is_before(sender->most_sent, sender->sent)) {
        sender->most_sent = sender->sent;
    }
    return size;
}

/* Notes when the sink was heard last. */
static void listen(struct sender *sender, uint32_t now) {
    if (sender->has_heard || sender->state != SENDER_LINKED) {
        sender->heard_at = now;
    }
    sender->has_heard = false;
    sender->is_deaf = now - sender->heard_at > SENDER_DEAF_MS;
}

static size_t put_begin(const struct sender *sender, uint8_t *body) {
    body[0] = KIND_BEGIN;
    wire_put32(body + 1, sender->session);
    wire_put32(body + 5, sender->token);
    wire_put16(body + 9, sender->inputs.stops);
    wire_put16(body + 11, sender->inputs.halts);
    wire_put16(body + 13, sender->inputs.low);
    wire_put16(body + 15, sender->inputs.debounce_us);
    wire_put64(body + 17, sender->mark);
    return WIRE_BEGIN;
}

size_t sender_write(struct sender *sender, uint32_t now, uint8_t *line) {
    uint8_t body[WIRE_BODY];
    listen(sender, now);
    bool begins = sender->state == SENDER_BEGINS;
    bool is_silent = !sender->has_spoken || now - sender->spoke_at >= (begins ? SENDER_BEGINS_MS : SENDER_SPEAKS_MS);
    if ((!begins && sender->state != SENDER_LINKED) || (begins && !is_silent)) {
        return 0;
    }
    size_t size = begins ? put_begin(sender, body) : put_words(sender, body);
    if (!begins && size == WIRE_HEAD && !is_silent) {
        return 0;
    }
    sender->spoke_at = now;
    sender->has_spoken = true;
    return wire_frame(line, body, size);
}

size_t sender_stop(const struct sender *sender, bool is_at_once, uint8_t *line) {
    uint8_t body[WIRE_STOP + WIRE_CRC];
    body[0] = KIND_STOP;
    wire_put32(body + 1, sender->session);
    body[5] = is_at_once;
    return wire_frame(line, body, WIRE_STOP);
}

/* An answer of this session. One that was late says nothing new. Where a frame was lost, all from that one on go
 * again. */
static void heed(struct sender *sender, const struct sink_answer *answer) {
    const struct sink_answer *last = &sender->sink;
    bool is_late = is_before(answer->made, last->made) || is_before(answer->taken, last->taken);
    bool is_possible = answer->taken - answer->made <= WIRE_FIFO && !is_before(sender->most_sent, answer->taken);
    if (is_late || !is_possible) {
        return;
    }
    bool is_lost = answer->lost != last->lost;
    sender->sink = *answer;
    if (is_lost || is_before(sender->sent, answer->taken)) {
        sender->sent = answer->taken;
    }
    if (answer->state == SINK_STOPPED || answer->state == SINK_BROKEN) {
        sender->state = SENDER_ENDED;
    }
}

/* The session that was asked for has begun: words are given from the sink's count on. */
static void link_up(struct sender *sender, const struct sink_answer *answer) {
    sender->session = answer->session;
    sender->given = answer->made;
    sender->sent = answer->made;
    sender->most_sent = answer->made;
    sender->looked = answer->made;
    sender->sink = *answer;
    bool has_stopped = answer->state == SINK_STOPPED || answer->state == SINK_BROKEN;
    sender->state = has_stopped ? SENDER_ENDED : SENDER_LINKED;
}

/* An answer before a session has begun: of the last session, or by its token of the one that was asked for. */
static void seek(struct sender *sender, const struct sink_answer *answer) {
    bool is_own = answer->token == sender->token && !sender->listens;
    bool is_old = sender->is_heard && is_before(answer->session, sender->session);
    if (is_own) {
        link_up(sender, answer);
        return;
    }
    if (is_old) {
        return;
    }
    sender->is_heard = true;
    sender->session = answer->session;
    sender->sink = *answer;
    sender->state = answer->state == SINK_RUNS || sender->listens ? SENDER_SEEKS : SENDER_BEGINS;
}

/* Whether an answer of another session tells that the chip started again. One of a later session does. A chip that
 * doesn't keep the number of its boot begins with an earlier one, and so may an answer that was late: that is one, or a
 * few, and none of this session is between them. */
static bool tells_of_reset(struct sender *sender, const struct sink_answer *answer) {
    bool is_new = answer->state == SINK_NEW && sender->new_answers < SENDER_NEW_ANSWERS;
    sender->new_answers = (uint8_t)(sender->new_answers + is_new);
    return is_before(sender->session, answer->session) || sender->new_answers == SENDER_NEW_ANSWERS;
}

void sender_read(struct sender *sender, uint8_t byte) {
    size_t size = 0;
    struct sink_answer answer;
    if (wire_take(&sender->reader, byte, &size) != WIRE_FRAME || !wire_get_answer(sender->reader.body, size, &answer)) {
        return;
    }
    if (sender->state == SENDER_SEEKS || sender->state == SENDER_BEGINS) {
        seek(sender, &answer);
    } else if (answer.session == sender->session) {
        sender->has_heard = true;
        sender->new_answers = 0;
        heed(sender, &answer);
    } else if (sender->state == SENDER_LINKED && tells_of_reset(sender, &answer)) {
        sender->state = SENDER_RESET;
    }
}

const char *sender_why(const struct sender *sender) {
    static const char *const faults[] = {
        "nothing", "the sink heard nothing for half a second", "the sink was sent a word that isn't one",
        "the sink was asked to stop", "an input brought the sink to rest", "an input stopped the sink dead",
        "the sink was asked to stop dead", "the sink's main loop hung"};
    if (sender->state == SENDER_RESET) {
        return "the sink's chip started again";
    }
    return sender->is_deaf ? "no answer from the sink for two seconds" : faults[sender->sink.fault];
}
