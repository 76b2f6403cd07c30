/* The main loop's half of a sink: takes frames, begins to run, answers. */
#include "sink.h"

#include <string.h>

#include "sink_port.h"

void sink_start(struct sink *sink, uint16_t boot, uint32_t now) {
    memset(sink, 0, sizeof *sink);
    sink->is_rest = true;
    sink->is_still = true;
    sink->session = (uint32_t)boot << 16;
    sink->heard_at = now;
    sink->answered_at = now;
    sink->looked_at = now;
}

static bool takes_words(const struct sink *sink) {
    uint8_t state = sink->state;
    return (state == SINK_STANDS || state == SINK_RUNS) && sink_asked(sink) == FAULT_NONE;
}

static bool are_words(const uint8_t *words, uint32_t count) {
    for (uint32_t at = 0; at < count; at++) {
        if (!wire_is_word(wire_get32(words + at * WIRE_WORD), words[at * WIRE_WORD + 4])) {
            return false;
        }
    }
    return true;
}

/* Puts what is taken now in force. */
static void set_taken(struct sink *sink, struct sink_taken taken) {
    uint8_t other = 1 - sink->newest;
    sink->taken[other].words = taken.words;
    sink->taken[other].rises = taken.rises;
    sink->taken[other].rest = taken.rest;
    sink->newest = other;
}

/* Puts words behind those in the FIFO, where there is room. They count once all of them are there. */
static void put_words(struct sink *sink, const uint8_t *words, uint32_t count) {
    struct sink_taken taken = *sink_taken(sink);
    for (uint32_t at = 0; at < count; at++) {
        uint32_t value = wire_get32(words + at * WIRE_WORD);
        uint8_t bits = words[at * WIRE_WORD + 4];
        sink->values[taken.words % WIRE_FIFO] = value;
        sink->bits[taken.words % WIRE_FIFO] = bits;
        taken.words++;
        taken.rises += (bits & WORD_OUTPUT) != 0 ? 0 : wire_slope(value);
        taken.rest = (bits & WORD_REST) != 0 ? taken.words : taken.rest;
    }
    set_taken(sink, taken);
}

/* A frame of words: it is put in where it holds those that come next. One that came before says nothing new; where one
 * is missing before it, or there is no room, it counts as lost. */
static void take_words(struct sink *sink, const uint8_t *body, size_t size) {
    uint32_t taken = sink_taken(sink)->words;
    uint32_t ahead = wire_get32(body + 5) - taken;
    uint32_t count = (uint32_t)(size - WIRE_HEAD) / WIRE_WORD;
    if (!takes_words(sink) || ahead >= 0x80000000) {
        return;
    }
    if (ahead > 0 || count > WIRE_FIFO - (taken - sink->made)) {
        sink->lost++;
        return;
    }
    if (size != WIRE_HEAD + count * WIRE_WORD || !are_words(body + WIRE_HEAD, count)) {
        sink->asked = FAULT_WORD;
        return;
    }
    put_words(sink, body + WIRE_HEAD, count);
}

/* A session begins where nothing runs. What was in the FIFO isn't made, and the count goes on. */
static void begin_session(struct sink *sink, const uint8_t *body) {
    if (sink->state == SINK_RUNS) {
        return;
    }
    sink->session++;
    set_taken(sink, (struct sink_taken){sink->made, sink->rises_made, sink->made});
    sink->is_rest = true;
    sink->is_still = true;
    sink->is_slowed = false;
    sink->is_braking = false;
    sink->is_touched = false;
    sink->is_hung = false;
    sink->touched = 0;
    sink->asked = FAULT_NONE;
    sink->fault = FAULT_NONE;
    sink->lost = 0;
    sink->dry = 0;
    sink->lines = 0;
    sink->is_beside = false;
    sink->mark = wire_get64(body + 17);
    sink->token = wire_get32(body + 5);
    sink->inputs.stops = wire_get16(body + 9);
    sink->inputs.halts = wire_get16(body + 11);
    sink->inputs.low = wire_get16(body + 13);
    sink->inputs.debounce_us = wire_get16(body + 15);
    sink->steady = 0;
    sink->steady_for = 0;
    sink_switch_off(sink);
    sink->state = SINK_STANDS;
}

/* The sender asks for a stop, by the slopes or at once. */
static void heed_stop(struct sink *sink, bool is_at_once) {
    if (is_at_once) {
        sink->asked = FAULT_DEAD;
    } else if (sink->asked == FAULT_NONE) {
        sink->asked = FAULT_ASKED;
    }
}

/* A frame that isn't damaged. Of another session it is nothing. */
static void take_frame(struct sink *sink, const uint8_t *body, size_t size, uint32_t now) {
    if (size < WIRE_STOP || wire_get32(body + 1) != sink->session) {
        return;
    }
    sink->heard_at = now;
    if (body[0] == KIND_WORDS && size >= WIRE_HEAD) {
        take_words(sink, body, size);
    } else if (body[0] == KIND_BEGIN && size == WIRE_BEGIN) {
        begin_session(sink, body);
    } else if (body[0] == KIND_STOP && size == WIRE_STOP) {
        heed_stop(sink, body[5] != 0);
    }
}

/* Takes what came, no more than two frames' length, so that the rest has its turn. */
static void read_bytes(struct sink *sink, uint32_t now) {
    size_t size = 0;
    for (int count = 0; count < 2 * WIRE_LINE; count++) {
        int byte = sink_port_read();
        if (byte < 0) {
            return;
        }
        enum wire_taken taken = wire_take(&sink->reader, (uint8_t)byte, &size);
        if (taken == WIRE_FRAME) {
            take_frame(sink, sink->reader.body, size, now);
        }
        sink->lost = (uint16_t)(sink->lost + (taken == WIRE_DAMAGED));
    }
}

static void heed_silence(struct sink *sink, uint32_t now) {
    if (takes_words(sink) && now - sink->heard_at > SINK_SILENCE_MS * WIRE_TICKS_A_MS) {
        sink->asked = FAULT_SILENT;
    }
}

/* Whether what is in the FIFO may begin: something in it ends at rest, or it is enough for the next words to come, or
 * it is speeds of the spindle alone. */
static bool may_run(const struct sink *sink) {
    const volatile struct sink_taken *taken = sink_taken(sink);
    uint32_t count = taken->words - sink->made;
    uint32_t ticks = 0;
    uint32_t speeds = 0;
    if (taken->rest - sink->made - 1 < WIRE_FIFO || count >= SINK_BEGINS_WORDS) {
        return true;
    }
    for (uint32_t at = sink->made; at != taken->words && ticks < SINK_BEGINS_MS * WIRE_TICKS_A_MS; at++) {
        bool is_speed = wire_is_speed(sink->bits[at % WIRE_FIFO]);
        ticks += is_speed ? 0 : wire_ticks(sink->values[at % WIRE_FIFO]);
        speeds += is_speed;
    }
    return ticks >= SINK_BEGINS_MS * WIRE_TICKS_A_MS || (count > 0 && speeds == count);
}

/* At rest: stops for a fault, or begins to run. */
static void stand(struct sink *sink, uint32_t passed) {
    if (!sink_has_to_stop(sink, passed) && may_run(sink)) {
        sink->part = WIRE_LEAST_TICKS;
        sink->unpolled = 0;
        sink->state = SINK_RUNS;
        sink_port_timer(WIRE_LEAST_TICKS);
    }
}

/* The inputs as they are told: one that has to be on for some time to stop dead isn't on before it has stopped. */
static uint16_t inputs_told(const struct sink *sink, uint8_t state) {
    bool is_looked_at = state == SINK_STANDS || state == SINK_RUNS;
    uint16_t not_heeded = is_looked_at && sink->inputs.debounce_us > 0 ? sink->inputs.stops : 0;
    return (uint16_t)(sink_inputs(sink) & ~not_heeded);
}

/* The state is read first: with that of a fault the count is final. */
static void answer(struct sink *sink) {
    struct sink_answer now;
    now.state = sink->state;
    now.fault = sink->fault;
    now.made = sink->made;
    now.taken = sink_taken(sink)->words;
    now.session = sink->session;
    now.inputs = inputs_told(sink, now.state);
    now.lost = sink->lost;
    now.token = sink->token;
    now.touched = sink->touched;
    now.dry = sink->dry;
    now.lines = sink->lines;
    now.mark = sink->is_beside ? WIRE_NO_MARK : sink->mark;
    size_t size = wire_put_answer(sink->body, &now);
    sink_port_write(sink->line, wire_frame(sink->line, sink->body, size));
}

void sink_poll(struct sink *sink, uint32_t now) {
    uint32_t passed = now - sink->looked_at;
    sink->looked_at = now;
    sink_port_watchdog();
    sink->polls = (uint8_t)(sink->polls + 1);
    read_bytes(sink, now);
    heed_silence(sink, now);
    if (sink->state == SINK_STANDS) {
        stand(sink, passed);
    }
    if (now - sink->answered_at >= SINK_ANSWERS_MS * WIRE_TICKS_A_MS) {
        sink->answered_at = now;
        answer(sink);
    }
}
