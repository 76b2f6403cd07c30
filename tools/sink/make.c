/* The timer's half of a sink: makes words, each in its time or, so that it can come to rest, in a longer one. */
#include "sink.h"
#include "sink_port.h"

enum { MOST_SQUARE = 0xf0000000u, STOOD = WIRE_MOST_TICKS };

uint16_t sink_inputs(const struct sink *sink) {
    return (uint16_t)(sink_port_inputs() ^ sink->inputs.low);
}

void sink_switch_off(struct sink *sink) {
    sink->outputs.speed = 0;
    sink->outputs.spindle = 0;
    sink->outputs.mist = 0;
    sink->outputs.flood = 0;
    sink_port_pins(0, 0, &sink->outputs);
}

/* Stops. The state comes last: who reads it first sees a count that stays. */
static void stop(struct sink *sink, uint8_t fault) {
    sink_switch_off(sink);
    sink->left = 0;
    sink->fault = fault;
    sink->state = sink->is_still ? SINK_STOPPED : SINK_BROKEN;
}

const volatile struct sink_taken *sink_taken(const struct sink *sink) {
    return &sink->taken[sink->newest];
}

uint8_t sink_asked(const struct sink *sink) {
    return sink->is_touched ? FAULT_TOUCHED : sink->is_hung ? FAULT_HUNG : sink->asked;
}

/* Notes an input that brings it to rest. */
static void touch(struct sink *sink) {
    sink->touched = sink->made;
    sink->is_touched = true;
}

/* The inputs that stop dead. Where they have to be on for some time these were so at each look of as long, and at two
 * looks at least: one that comes on is among them after that time to twice as long. */
static uint16_t stopping(struct sink *sink, uint16_t inputs, uint32_t passed) {
    uint16_t on = inputs & sink->inputs.stops;
    uint32_t lasts = sink->inputs.debounce_us * (WIRE_TICKS_A_MS / 1000u);
    sink->steady &= on;
    sink->steady_for += passed;
    if (lasts == 0) {
        return on;
    }
    if (sink->steady_for < lasts) {
        return 0;
    }
    uint16_t steady = sink->steady;
    sink->steady = on;
    sink->steady_for = 0;
    return steady;
}

bool sink_has_to_stop(struct sink *sink, uint32_t passed) {
    uint16_t inputs = sink_inputs(sink);
    if (stopping(sink, inputs, passed) != 0 || sink->asked == FAULT_DEAD) {
        stop(sink, sink->asked == FAULT_DEAD ? FAULT_DEAD : FAULT_INPUT);
        return true;
    }
    if ((inputs & sink->inputs.halts) != 0 && !sink->is_touched) {
        touch(sink);
    }
    uint8_t asked = sink_asked(sink);
    if (asked != FAULT_NONE && sink->is_still) {
        stop(sink, asked);
        return true;
    }
    return false;
}

/* The FIFO is empty, and its last word has lasted: the motors stand. */
static void run_out(struct sink *sink) {
    sink->square = 0;
    sink->is_slowed = !sink->is_rest;
    sink->lasted = STOOD;
    sink->state = SINK_STANDS;
}

/* Whether a word of so many ticks is no faster than a square. */
static bool is_within(uint32_t ticks, uint32_t square) {
    bool is_slow = ticks >= 0x10000 && square >= 0x400;
    return is_slow || (uint64_t)ticks * ticks * square >= UINT64_C(1) << 42;
}

/* The whole root, bit by bit. */
static uint32_t root_of(uint32_t square) {
    uint32_t root = 0;
    for (uint32_t bit = 0x8000; bit != 0; bit >>= 1) {
        uint32_t more = root | bit;
        root = more * more <= square ? more : root;
    }
    return root;
}

/* The square of a word of so many ticks, rounded up. */
static uint32_t square_of(uint32_t ticks) {
    uint32_t rate = (0x200000 + ticks - 1) / ticks;
    return rate * rate;
}

/* The greatest square of the word at the FIFO's front: no more than what is behind it in the FIFO lets it lose, unless
 * that has a rest, and where the word before was slowed down one slope more than that one's. Where it is to stop, one
 * slope less. */
static uint32_t greatest_square(struct sink *sink, uint32_t slope) {
    const volatile struct sink_taken *taken = sink_taken(sink);
    uint32_t behind = taken->rises - sink->rises_made;
    bool has_rest = taken->rest - sink->made - 1 < WIRE_FIFO;
    uint32_t most = has_rest ? MOST_SQUARE : behind;
    uint32_t square = sink->is_slowed ? sink->square + slope : MOST_SQUARE;
    if (sink_asked(sink) != FAULT_NONE) {
        uint32_t now = sink->square;
        if (!sink->is_braking && square_of(sink->lasted) < now) {
            now = square_of(sink->lasted);
        }
        sink->is_braking = true;
        square = now > slope + slope / 2 ? now - slope : slope / 2;
    }
    return square < most ? square : most;
}

/* How many ticks a word lasts. A division and a root where it is made longer, else neither. */
static uint32_t lasting(const struct sink *sink, uint32_t ticks) {
    if (is_within(ticks, sink->square)) {
        return ticks;
    }
    uint32_t root = root_of(sink->square);
    uint32_t least = (0x200000 + root - 1) / root;
    return ticks > least ? ticks : least;
}

static void make_output(struct sink *sink, uint32_t value, uint8_t bits) {
    sink->left = WIRE_LEAST_TICKS;
    if ((bits & WORD_SWITCH) == 0) {
        sink->speed_low = value;
        sink_port_pins(0, 0, NULL);
        return;
    }
    wire_get_outputs(sink->speed_low, value, &sink->outputs);
    sink_port_pins(0, 0, &sink->outputs);
}

/* Makes the speeds of the spindle that come next: the last of them counts, and they last no time. */
static void make_speeds(struct sink *sink) {
    bool is_there = false;
    while (sink->made != sink_taken(sink)->words && wire_is_speed(sink->bits[sink->made % WIRE_FIFO])) {
        sink->outputs.speed = wire_speed(sink->values[sink->made % WIRE_FIFO]);
        sink->made = sink->made + 1;
        is_there = true;
    }
    if (is_there) {
        sink_port_pins(0, 0, &sink->outputs);
    }
}

/* Makes a step. The motors may stand then if the time since the step before was no shorter than that of one slope. They
 * do at the last word in hand: what comes behind it begins from rest, with one slope. */
static void make_step(struct sink *sink, uint32_t value, uint8_t bits) {
    uint32_t slope = wire_slope(value);
    sink_port_pins(bits & WORD_STEPS, (uint8_t)((bits & WORD_DOWN) >> 3), NULL);
    sink->rises_made += slope;
    uint32_t square = greatest_square(sink, slope);
    sink->dry = (uint16_t)(sink->dry + (square == 0));
    sink->square = square == 0 ? slope : square;
    sink->is_still = is_within(sink->lasted, slope);
    sink->left = lasting(sink, wire_ticks(value));
    sink->is_slowed = sink->left > wire_ticks(value);
    sink->lasted = sink->left;
}

/* Counts a line, and notes steps and outputs that are no line's, but for extra steps. */
static void count_line(struct sink *sink, uint32_t value, uint8_t bits) {
    bool is_line = wire_is_line(value, bits);
    bool is_deed = (bits & ((bits & WORD_OUTPUT) != 0 ? WORD_SWITCH : WORD_STEPS)) != 0;
    sink->lines = sink->lines + is_line;
    sink->is_beside = sink->is_beside || (is_deed && !is_line && !wire_is_extra(bits));
}

/* Makes the word at the FIFO's front. */
static void make_word(struct sink *sink) {
    uint32_t value = sink->values[sink->made % WIRE_FIFO];
    uint8_t bits = sink->bits[sink->made % WIRE_FIFO];
    if ((bits & WORD_OUTPUT) != 0) {
        make_output(sink, value, bits);
    } else {
        make_step(sink, value, bits);
    }
    count_line(sink, value, bits);
    sink->is_rest = (bits & WORD_REST) != 0;
    if (sink->is_rest) {
        sink->is_still = true;
        sink->is_slowed = false;
        sink->lasted = STOOD;
    }
    sink->made = sink->made + 1;
}

/* How long until the next look: what is left of the word, or a part of it. */
static uint32_t look_again(struct sink *sink) {
    uint32_t part = sink->left < 2 * SINK_SLICE ? sink->left : SINK_SLICE;
    sink->left -= part;
    sink->part = part;
    return part;
}

/* Looks whether the main loop comes by. Where it hangs the sink comes to rest, and the watchdog waits for that. */
static void watch_main_loop(struct sink *sink) {
    bool has_come = sink->polls != sink->polls_seen;
    sink->polls_seen = sink->polls;
    sink->unpolled = has_come ? 0 : sink->unpolled + sink->part;
    if (sink->unpolled > SINK_HANGS_MS * WIRE_TICKS_A_MS) {
        sink->is_hung = true;
    }
    if (sink->is_hung && sink->unpolled < SINK_BRAKES_MS * WIRE_TICKS_A_MS) {
        sink_port_watchdog();
    }
}

uint32_t sink_make(struct sink *sink) {
    if (sink->state != SINK_RUNS) {
        return 0;
    }
    watch_main_loop(sink);
    if (sink_has_to_stop(sink, sink->part)) {
        return 0;
    }
    if (sink->left > 0) {
        return look_again(sink);
    }
    make_speeds(sink);
    if (sink->made == sink_taken(sink)->words) {
        run_out(sink);
        return 0;
    }
    make_word(sink);
    return look_again(sink);
}
