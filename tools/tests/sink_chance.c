/* Runs of a sink and its sender by chance, in one process, over a line that loses, damages, doubles and delays frames.
 *
 *     sink_chance SEED RUNS
 *
 * Printed are how many words were made, then how often each end was met. A broken promise is told with the run's
 * number, at status 1. What is checked knows the words that were given, when each was made, and nothing of the sink. */
#include <inttypes.h>
#include <math.h>
#include <stdarg.h>
#include <stdio.h>
#include <stdlib.h>
#include <string.h>

#include "sender.h"
#include "sink.h"
#include "sink_port.h"

enum { MOST_WORDS = 1 << 16, MOST_ON_WAY = 4096, MS = WIRE_TICKS_A_MS, WINDOW = 20 * MS, LATE_MS = 12 };

struct word {
    uint32_t value;
    uint8_t bits;
};

/* A word that was made. */
struct event {
    uint64_t at;
    uint8_t steps;
    uint8_t down;
    bool is_begun; /* the first one of a session, or after the sink had stood .. */
    bool is_dry;   /* .. in the midst of a path, as it had no more words */
};

struct frame {
    uint64_t comes; /* ms */
    size_t size;
    uint8_t bytes[WIRE_LINE + 300];
};

struct line {
    double rate; /* of frames, for each kind of fault */
    uint64_t cut_until;
    int count;
    struct frame on_way[MOST_ON_WAY];
};

static struct sink sink;
static struct sender sender;
static struct line forth, back;
static struct word plan[MOST_WORDS];
static uint32_t plan_size;
static struct event made[MOST_WORDS];
static uint32_t made_count;
static uint32_t base;       /* words that were made before the chip started .. */
static uint32_t bases[1 << 16]; /* .. as it has for a boot's number */
static uint32_t boots;
static uint64_t now;        /* ticks */
static uint64_t due;
static bool is_timed;
static uint16_t inputs;
static uint8_t came[1 << 16];
static size_t came_from, came_to;
static uint8_t last_steps, last_down;
static uint32_t begun_at;   /* words that were made when the sender's session began .. */
static uint64_t mark_of_session; /* .. with this mark */
static uint32_t asked_at;   /* words that were made when it was to come to rest */
static bool is_asked;
static bool is_fresh;
static bool was_dry;
static uint32_t run_number;
static unsigned long words_made, slower, sessions, ends[9], broken, dry;
static uint64_t random_state;

static void give_up(const char *format, ...) {
    va_list words;
    printf("run %" PRIu32 ", at %" PRIu64 " ms: ", run_number, now / MS);
    va_start(words, format);
    vprintf(format, words);
    va_end(words);
    printf("\n");
    exit(1);
}

static uint32_t chance(uint32_t below) {
    random_state = random_state * UINT64_C(6364136223846793005) + UINT64_C(1442695040888963407);
    return (uint32_t)((random_state >> 33) % below);
}

static bool happens(double rate) {
    return chance(1000000) < rate * 1000000;
}

void sink_port_timer(uint32_t ticks) {
    is_timed = true;
    due = now + ticks;
}

void sink_port_pins(uint8_t steps, uint8_t down, const struct sink_outputs *outputs) {
    last_steps = outputs == NULL ? steps : 0;
    last_down = outputs == NULL ? down : 0;
}

uint16_t sink_port_inputs(void) {
    return inputs;
}

int sink_port_read(void) {
    if (came_from == came_to) {
        return -1;
    }
    came_from++;
    return came[came_from - 1];
}

void sink_port_watchdog(void) {
}

/* Damages a frame: bytes are changed, left out or put in. */
static void damage(struct frame *frame) {
    size_t at = chance((uint32_t)frame->size);
    size_t cut = at + chance(3) > frame->size ? 0 : chance(3);
    size_t put = chance(4) == 0 ? chance(300) : chance(3);
    cut = at + cut > frame->size ? 0 : cut;
    memmove(frame->bytes + at + put, frame->bytes + at + cut, frame->size - at - cut);
    for (size_t index = 0; index < put; index++) {
        frame->bytes[at + index] = (uint8_t)chance(256);
    }
    frame->size += put;
    frame->size -= cut;
}

static void arrive(struct line *line, const struct frame *frame, uint64_t after) {
    if (line->count == MOST_ON_WAY) {
        give_up("too much on its way");
    }
    line->on_way[line->count] = *frame;
    line->on_way[line->count].comes = now / MS + after;
    line->count++;
}

static void put(struct line *line, const uint8_t *bytes, size_t size) {
    struct frame frame = {.size = size};
    memcpy(frame.bytes, bytes, size);
    if (now / MS < line->cut_until || happens(line->rate)) {
        return;
    }
    if (happens(line->rate)) {
        damage(&frame);
    }
    if (happens(line->rate)) {
        arrive(line, &frame, chance(3) == 0 ? 300 : chance(30));
    }
    arrive(line, &frame, happens(line->rate) ? chance(40) : 0);
}

/* The next frame that has come, in the order of their times. */
static bool take(struct line *line, struct frame *frame) {
    int first = -1;
    for (int at = 0; at < line->count; at++) {
        if (line->on_way[at].comes <= now / MS && (first < 0 || line->on_way[at].comes < line->on_way[first].comes)) {
            first = at;
        }
    }
    if (first < 0) {
        return false;
    }
    *frame = line->on_way[first];
    line->count--;
    memmove(&line->on_way[first], &line->on_way[first + 1], (size_t)(line->count - first) * sizeof *line->on_way);
    return true;
}

void sink_port_write(const uint8_t *bytes, size_t size) {
    put(&back, bytes, size);
}

static double square(double ticks) {
    return 4398046511104.0 / (ticks * ticks);
}

static uint32_t ticks_of(double of) {
    double ticks = ceil(2097152 / sqrt(of));
    return ticks < WIRE_LEAST_TICKS ? WIRE_LEAST_TICKS : ticks > WIRE_MOST_TICKS ? WIRE_MOST_TICKS : (uint32_t)ticks;
}

/* A motion whose rates change by no more than the slopes, from rest to rest; where it `has_room`, with stops and words
 * of the window for which there is room in the FIFO. */
static void plan_motion(uint32_t count, bool has_room) {
    static double most[MOST_WORDS];
    uint8_t mean = (uint8_t)(56 + chance(72));
    uint32_t first = plan_size;
    double reached = 0;
    double most_wanted = has_room ? fmin(1400.0 * wire_slope_of((uint8_t)(mean - 7)), 42e6) : 1e9;
    double wanted = fmin(pow(10, 3 + chance(60) / 10.0), most_wanted);
    for (uint32_t at = 0; at < count; at++) {
        uint8_t slope = (uint8_t)(mean - chance(8) * (chance(4) == 0));
        double turn = wanted + ((double)chance(2001) / 1000 - 1) * wire_slope_of(slope);
        wanted = fmin(fmax(turn, wire_slope_of(slope)), most_wanted);
        reached = fmin(reached + wire_slope_of(slope), wanted);
        most[at] = reached;
        plan[plan_size].bits = (uint8_t)(chance(64) | (at + 1 == count ? WORD_REST : 0));
        plan[plan_size].value = (uint32_t)(slope | (chance(2) == 0 ? WIRE_LINE_BIT : 0)) << 24;
        plan_size++;
    }
    double left = 0;
    for (uint32_t at = count; at > 0; at--) {
        double rate = fmin(most[at - 1], left);
        struct word *word = &plan[first + at - 1];
        word->value |= at == count ? WIRE_LEAST_TICKS + chance(40000) : ticks_of(rate);
        left += wire_slope(word->value);
    }
}

static void plan_outputs(void) {
    struct sink_outputs outputs = {chance(1u << 30), (uint8_t)chance(3), 1, 0, 4, 5};
    struct word *word = &plan[plan_size];
    wire_put_outputs(&word[0].value, &word[1].value, &outputs);
    word[0].bits = WORD_OUTPUT | WORD_REST;
    word[1].bits = (uint8_t)(WORD_OUTPUT | WORD_SWITCH | WORD_REST | (chance(2) == 0 ? WORD_LINE : 0));
    plan_size += 2;
}

static void make_plan(bool has_room) {
    static const uint32_t counts[] = {1, 2, 40, 300, 1500, 4000};
    plan_size = 0;
    for (uint32_t part = 1 + chance(5); part > 0; part--) {
        plan_motion(counts[chance(6)] + chance(10), has_room);
        if (chance(3) == 0) {
            plan_outputs();
        }
        if (chance(3) == 0) {
            plan[plan_size] = (struct word){WIRE_LEAST_TICKS + chance(50 * MS), WORD_REST};
            plan_size++;
        }
    }
}

/* The two words of a path whose last one is made: whether there was no rest before it. */
static bool is_path(uint32_t index) {
    return index > 0 && (plan[index - 1].bits & (WORD_REST | WORD_OUTPUT)) == 0 && !made[index].is_begun;
}

static double lasted(uint32_t index) {
    return (double)(made[index + 1].at - made[index].at);
}

/* The rate changes by no more than the slope: a word that is longer than it was given is so within a tick. */
static void check_slope(uint32_t index) {
    double before = lasted(index - 1);
    double here = lasted(index);
    double given = wire_ticks(plan[index].value);
    double slope = wire_slope(plan[index].value);
    double least = fmax(ceil(square(before) - slope), 1);
    double rounded = 2097152 / (before - 1) + 1;
    if (here > fmax(given, ceil(2097152 / floor(sqrt(least))))) {
        give_up("word %" PRIu32 " lasts %.0f after %.0f: it falls by more than %.0f", index, here, before, slope);
    }
    if (square(here) > rounded * rounded + slope) {
        give_up("word %" PRIu32 " lasts %.0f after %.0f: it rises by more than %.0f", index, here, before, slope);
    }
}

/* From the last motion the motors can stand with one slope. */
static void check_rest(uint32_t count) {
    bool is_moving = count > 1 && is_path(count - 1) && (plan[count - 1].bits & WORD_REST) == 0;
    if (is_moving && square(lasted(count - 2)) > wire_slope(plan[count - 1].value)) {
        give_up("it stands after word %" PRIu32 ", which came after %.0f ticks, in state %d by fault %d", count - 1,
                lasted(count - 2), sink.state, sink.fault);
    }
}

/* So many words a stop takes from where it was asked for, and no more. */
static void check_stop(void) {
    uint32_t at = asked_at;
    double left = at > 1 && is_path(at - 1) ? square(lasted(at - 2)) : 0;
    if (at > 1 && made_count > at && is_path(at)) {
        left = fmax(left, square(lasted(at - 1)));
    }
    while (left > 0 && at < plan_size && (plan[at].bits & WORD_REST) == 0) {
        left -= wire_slope(plan[at].value);
        at++;
    }
    if (made_count > at + 2) {
        give_up("it stopped %" PRIu32 " words after word %" PRIu32 ", not %" PRIu32, made_count - asked_at, asked_at,
                at - asked_at);
    }
}

/* A word was made. */
static void note_made(uint32_t was) {
    uint32_t index = base + was;
    if (index != made_count || index >= plan_size) {
        give_up("word %" PRIu32 " comes after %" PRIu32 " of %" PRIu32, index, made_count, plan_size);
    }
    struct event *event = &made[made_count];
    bool is_step = (plan[index].bits & WORD_OUTPUT) == 0;
    *event = (struct event){now, last_steps, last_down, is_fresh, was_dry};
    is_fresh = was_dry = false;
    made_count++;
    words_made++;
    if (is_step && (event->steps != (plan[index].bits & 7) || event->down != (plan[index].bits >> 3 & 7))) {
        give_up("word %" PRIu32 " isn't the one that was given", index);
    }
    if (event->is_begun || index == 0) {
        return;
    }
    double given = (plan[index - 1].bits & WORD_OUTPUT) != 0 ? WIRE_LEAST_TICKS : wire_ticks(plan[index - 1].value);
    if (lasted(index - 1) < given) {
        give_up("word %" PRIu32 " is too short", index - 1);
    }
    slower += lasted(index - 1) > given;
    if (made[index - 1].is_dry && is_path(index) && square(lasted(index - 1)) > wire_slope(plan[index - 1].value)) {
        give_up("word %" PRIu32 " begins from rest, and lasts %.0f", index - 1, lasted(index - 1));
    }
    if (index > 1 && is_path(index - 1) && is_path(index)) {
        check_slope(index - 1);
    }
}

/* The sink has left what it did: it stands by the slopes, or stopped dead. */
static void note_stop(void) {
    if (sink.state == SINK_BROKEN) {
        broken++;
        if (sink.fault != FAULT_INPUT && sink.fault != FAULT_DEAD) {
            give_up("it stopped dead for fault %d", sink.fault);
        }
    } else if (!is_fresh && sink.fault != FAULT_INPUT && sink.fault != FAULT_DEAD) {
        check_rest(made_count);
        if (is_asked) {
            check_stop();
        }
    }
    is_fresh = true;
    was_dry = sink.state == SINK_STANDS && made_count > 0 && (plan[made_count - 1].bits & WORD_REST) == 0;
}

static void make_one(void) {
    uint32_t was = sink.made;
    uint32_t after = sink_make(&sink);
    is_timed = after > 0;
    due += after;
    if (sink.made != was) {
        note_made(was);
    }
    if (!is_timed) {
        note_stop();
    }
}

/* Notes when it was to come to rest. */
static void heed_asked(void) {
    bool was_asked = is_asked;
    is_asked = sink_asked(&sink) != FAULT_NONE;
    if (is_asked && !was_asked) {
        asked_at = made_count;
    }
}

/* The chip goes on for a millisecond. */
static void run_sink(void) {
    uint64_t until = now + MS;
    struct frame frame;
    came_from = came_to = 0;
    while (take(&forth, &frame) && came_to + frame.size < sizeof came) {
        memcpy(came + came_to, frame.bytes, frame.size);
        came_to += frame.size;
    }
    while (is_timed && due <= until) {
        now = due;
        make_one();
        heed_asked();
    }
    now = until;
    do {
        sink_poll(&sink, (uint32_t)now);
        heed_asked();
    } while (came_from != came_to);
}

static void seek_anew(uint16_t stops, uint16_t halts) {
    static uint32_t token;
    struct sink_inputs of = {stops, halts, 0, 0};
    token++;
    sender_begin(&sender, token, &of, WINDOW, made_count);
}

/* The words that were made before the chip started as it had for the sender's session. */
static uint32_t sender_base(void) {
    return bases[sender.session >> 16];
}

static void give_words(void) {
    enum sender_give given = GIVE_TAKEN;
    uint32_t at = sender_base() + sender.given;
    if (at < plan_size && (plan[at].bits & WORD_SWITCH) != 0 && (plan[at].bits & WORD_OUTPUT) != 0) {
        plan[at] = (struct word){WIRE_LEAST_TICKS, WORD_REST}; /* the first half of an output was made before */
    }
    while (at < plan_size && sender_wants(&sender) && given == GIVE_TAKEN) {
        const struct word *word = &plan[at];
        struct sink_outputs outputs;
        if ((word->bits & WORD_OUTPUT) == 0) {
            given = sender_give(&sender, wire_ticks(word->value), (uint8_t)(word->value >> 24), word->bits);
        } else {
            wire_get_outputs(word->value, word[1].value, &outputs);
            given = sender_switch(&sender, &outputs, (word[1].bits & WORD_LINE) != 0);
        }
        at = sender_base() + sender.given;
    }
    if (given == GIVE_REFUSED) {
        give_up("word %" PRIu32 " is refused", at);
    }
}

/* The sink says how many lines were made in its session, and by its mark from where on. */
static void check_lines(const struct sink_answer *said) {
    uint32_t lines = 0;
    bool is_beside = false;
    for (uint32_t at = begun_at; at < made_count; at++) {
        bool is_output = (plan[at].bits & WORD_OUTPUT) != 0;
        bool is_line = is_output ? (plan[at].bits & WORD_LINE) != 0 : plan[at].value >> 31 != 0;
        lines += is_line;
        bool is_extra = !is_output && (plan[at].bits >> 3 & 7 & ~plan[at].bits) != 0; /* down without a step */
        bool is_deed = (plan[at].bits & (is_output ? WORD_SWITCH : WORD_STEPS)) != 0;
        is_beside = is_beside || (!is_line && is_deed && !is_extra);
    }
    if (said->lines != lines || said->mark != (is_beside ? WIRE_NO_MARK : mark_of_session)) {
        give_up("it says %" PRIu32 " lines by mark %" PRIu64 ", and made %" PRIu32, said->lines, said->mark, lines);
    }
}

/* The session of the sender is over. */
static void note_end(void) {
    uint32_t count = sender_base() + sender.sink.made;
    if (sender.state == SENDER_ENDED && sender_base() == base && count != made_count) {
        give_up("the sink says %" PRIu32 ", and made %" PRIu32, count, made_count);
    }
    if (sender.state == SENDER_ENDED && sender_base() == base) {
        check_lines(&sender.sink);
    }
    ends[sender.state == SENDER_ENDED ? sender.sink.fault : FAULT_HUNG + 1]++;
    seek_anew(sender.inputs.stops, sender.inputs.halts);
}

static void run_sender(void) {
    uint8_t bytes[WIRE_LINE];
    struct frame frame;
    bool was_linked = sender.state == SENDER_LINKED;
    while (take(&back, &frame)) {
        for (size_t at = 0; at < frame.size; at++) {
            sender_read(&sender, frame.bytes[at]);
        }
    }
    if (!was_linked && (sender.state == SENDER_LINKED || sender.state == SENDER_ENDED)) {
        begun_at = made_count;
        mark_of_session = sender.mark;
    }
    if (sender.state == SENDER_LINKED) {
        if (!was_linked && sender_base() == base && base + sender.given != made_count) {
            give_up("a session begins at %" PRIu32 ", and %" PRIu32 " are made", base + sender.given, made_count);
        }
        sessions += !was_linked;
        was_dry = was_dry && was_linked;
        give_words();
    }
    if (sender.state == SENDER_ENDED || sender.state == SENDER_RESET) {
        note_end();
    }
    size_t size = sender_write(&sender, (uint32_t)(now / MS), bytes);
    while (size > 0) {
        put(&forth, bytes, size);
        size = sender_write(&sender, (uint32_t)(now / MS), bytes);
    }
}

static void boot(void) {
    boots++;
    base = made_count;
    bases[boots & 0xffff] = base;
    is_timed = is_asked = was_dry = false;
    is_fresh = true;
    sink_start(&sink, (uint16_t)boots, (uint32_t)now);
}

static void ask_to_stop(bool is_at_once) {
    uint8_t bytes[WIRE_LINE];
    size_t size = sender_stop(&sender, is_at_once, bytes);
    if (sender.state == SENDER_LINKED) {
        put(&forth, bytes, size);
    }
}

/* A frame that isn't damaged holds a word that isn't one. */
static void send_bad_word(void) {
    static const struct word bad[] = {
        {39, 1}, {40 | 32, WORD_OUTPUT}, {40, WORD_OUTPUT | WORD_REST | 4}, {3, WORD_OUTPUT | WORD_REST | WORD_SWITCH}};
    const struct word *word = &bad[chance(4)];
    uint8_t body[WIRE_BODY];
    uint8_t bytes[WIRE_LINE];
    body[0] = KIND_WORDS;
    wire_put32(body + 1, sender.session);
    wire_put32(body + 5, sink_taken(&sink)->words);
    wire_put32(body + WIRE_HEAD, word->value);
    body[WIRE_HEAD + 4] = word->bits;
    put(&forth, bytes, wire_frame(bytes, body, WIRE_HEAD + WIRE_WORD));
}

/* The sender does nothing for longer than the sink waits for it. */
static void sleep_long(void) {
    for (int ms = 0; ms < 600; ms++) {
        run_sink();
    }
}

/* What befalls a run now and then; returns for how many milliseconds the sender does nothing. */
static uint32_t disturb(void) {
    static const uint32_t cuts[] = {5, 30, 90, 700};
    uint32_t what = chance(1000);
    if (what < 6) {
        seek_anew(sender.inputs.stops, sender.inputs.halts); /* it was killed, and another one follows */
    } else if (what < 12) {
        forth.cut_until = now / MS + cuts[chance(4)];
    } else if (what < 18) {
        back.cut_until = now / MS + cuts[chance(4)];
    } else if (what < 22) {
        inputs = (uint16_t)chance(4);
    } else if (what < 28) {
        inputs = 0;
    } else if (what < 31) {
        ask_to_stop(chance(4) == 0);
    } else if (what < 32) {
        boot();
    } else if (what < 42) {
        return 15 + chance(100);
    } else if (what < 44) {
        sleep_long();
    } else if (what < 45) {
        send_bad_word();
    }
    return 0;
}

/* Nothing comes any more: it comes to rest by itself, and counts what was made. */
static void cut_all(void) {
    forth.cut_until = back.cut_until = UINT64_MAX;
    forth.count = back.count = 0;
    for (int ms = 0; ms < 3000; ms++) {
        run_sink();
    }
    if (sink.state == SINK_RUNS || sink.state == SINK_STANDS) {
        give_up("it goes on alone, in state %d", sink.state);
    }
    if (base + sink.made != made_count) {
        give_up("it counts %" PRIu32 " of %" PRIu32, base + sink.made, made_count);
    }
}

/* A run over a good line with pauses that the window bears: each word lasts as long as it was given. */
static void run_well(void) {
    uint64_t sleeps = 0;
    uint64_t begun = now / MS;
    unsigned long was = slower;
    while (made_count < plan_size) {
        if (sleeps <= now / MS) {
            run_sender();
            sleeps = now / MS + (chance(10) == 0 ? chance(LATE_MS) : 0);
        }
        run_sink();
        if (now / MS > begun + 100000) {
            give_up("it doesn't come to its end: state %d, sender %d, given %u taken %u made %u of %u", sink.state,
                    sender.state, sender.given, sink_taken(&sink)->words, sink.made, plan_size);
        }
    }
    uint16_t rests = 0;
    for (uint32_t at = 0; at + 1 < plan_size; at++) {
        rests = (uint16_t)(rests + (lasted(at) > wire_ticks(plan[at].value) && (plan[at].bits & WORD_REST) != 0));
    }
    if (slower - was > rests || sink.dry != 0) {
        give_up("%lu words are longer than they were given, %d rests among them; it ran dry %d times", slower - was,
                rests, sink.dry);
    }
}

static void run_ill(void) {
    static const double rates[] = {0, 0.005, 0.03, 0.1};
    uint64_t sleeps = 0;
    uint64_t until = now / MS + (chance(3) == 0 ? 4000 : 400 + chance(1000));
    forth.rate = rates[chance(4)];
    back.rate = rates[chance(4)];
    while (now / MS < until && made_count < plan_size) {
        uint32_t pause = disturb();
        sleeps = pause > 0 ? now / MS + pause : sleeps;
        if (sleeps <= now / MS) {
            run_sender();
        }
        run_sink();
    }
}

static void run_one(void) {
    forth.rate = back.rate = 0;
    forth.cut_until = back.cut_until = 0;
    forth.count = back.count = 0;
    made_count = 0;
    inputs = 0;
    now = chance(1u << 31);
    now -= now % MS;
    make_plan(run_number % 5 == 0);
    boot();
    seek_anew(chance(2) == 0 ? 1 : 0, chance(2) == 0 ? 2 : 0);
    if (run_number % 5 == 0) {
        run_well();
    } else {
        run_ill();
    }
    dry += sink.dry;
    cut_all();
}

int main(int count, char **given) {
    if (count != 3) {
        return 2;
    }
    uint32_t first = (uint32_t)strtoul(given[1], NULL, 10);
    uint32_t runs = (uint32_t)strtoul(given[2], NULL, 10);
    for (uint32_t run = 0; run < runs; run++) {
        run_number = first + run;
        random_state = run_number * UINT64_C(0x9e3779b97f4a7c15) + 1;
        run_one();
    }
    printf("words %lu slower %lu sessions %lu silent %lu word %lu asked %lu touched %lu input %lu dead %lu reset %lu"
           " broken %lu dry %lu\n", words_made, slower, sessions, ends[FAULT_SILENT], ends[FAULT_WORD],
           ends[FAULT_ASKED], ends[FAULT_TOUCHED], ends[FAULT_INPUT], ends[FAULT_DEAD],
           ends[FAULT_HUNG + 1], broken, dry);
    return 0;
}
