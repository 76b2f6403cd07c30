/* The bench's commands and its clock. It prints the terminal's path, then does what each line of its input says, and
 * ends with the input.
 *     run TICKS BYTES    lets so many ticks of 1/8 us go by, once it has got so many bytes of the terminal in all
 *     inputs BITS        sets the inputs
 *     switch INPUT AXIS  turns an input round while the axis, from 0 for X, is at least at STEPS from where it began,
 *       SIGN STEPS       or at most, where SIGN is -1
 *     turn STEPS BITS    turns inputs round once the motors have made so many steps
 *     boot BOOT          the chip starts again
 *     stray TICK         its timer calls sink_make while it isn't to
 *     serve MS           from now on the clock goes on by itself, but where the sink would have to slow down, or hears
 *                        nothing, no sooner than so many real milliseconds later
 *     tempo PERCENT      then its clock goes on no faster than in so many percent of real time; 0 for as fast as it can
 *     faults SEED RATE   of a thousand frames so many are lost, or damaged, or doubled, each way
 *     cut MS             nothing comes through for so many milliseconds of the clock
 * What the pins do is printed as `P tick steps down` and `S tick spindle speed mist flood selected slot`; each line is
 * answered by `. bytes` at its end, where so many bytes were sent to the terminal in all. */
#define _XOPEN_SOURCE 600
#include "bench.h"

#include <inttypes.h>
#include <poll.h>
#include <stdio.h>
#include <stdlib.h>
#include <string.h>
#include <time.h>
#include <unistd.h>

#include "bench_line.h"

enum { SLICE_TICKS = WIRE_TICKS_A_MS, SHORT_TICKS = WIRE_TICKS_A_MS / 10, HEARS_MS = 100, HAS_MS = 12, SWITCHES = 4, AGAIN_MS = 200 };
enum { AHEAD_TICKS = 4 * SLICE_TICKS }; /* a slice, a frame on the line, and the main loop that reads it */

static unsigned inputs;
static struct { unsigned bit; int axis; long sign; long at; } switches[SWITCHES]; /* a bit of 0 is none */
static long place[3];
static unsigned long steps_made;
static unsigned long turns_at; /* 0 for never */
static unsigned turned;
static unsigned long serves_ms; /* 0 where it doesn't serve */
static unsigned long tempo;
static uint64_t tempo_from;     /* real milliseconds and ticks from which on it is heeded */
static uint64_t tempo_ticks;
static uint64_t waited;         /* real milliseconds since which the clock stands */

void bench_give_up(const char *what) {
    fprintf(stderr, "bench: %s\n", what);
    exit(2);
}

static void tell_levels(void) {
    unsigned levels = inputs ^ (turns_at > 0 && steps_made >= turns_at ? turned : 0);
    for (int at = 0; at < SWITCHES; at++) {
        levels ^= switches[at].sign * (place[switches[at].axis] - switches[at].at) >= 0 ? switches[at].bit : 0;
    }
    device_see((uint16_t)levels);
}

void bench_step(uint64_t tick, uint8_t steps, uint8_t down) {
    for (int axis = 0; axis < 3; axis++) {
        place[axis] += (steps >> axis & 1) * ((down >> axis & 1) ? -1 : 1);
    }
    steps_made += steps != 0;
    printf("P %" PRIu64 " %u %u\n", tick, steps, down);
    tell_levels();
}

void bench_outputs(uint64_t tick, const struct sink_outputs *outputs) {
    printf("S %" PRIu64 " %u %" PRIu64 " %u %u %u %u\n", tick, outputs->spindle, outputs->speed, outputs->mist,
           outputs->flood, outputs->selected, outputs->slot);
}

/* Whether the words of the next AHEAD_TICKS can be made in their times, if nothing comes before; and whether there are
 * words for HAS_MS, or the sender has just spoken and had no more. */
static bool is_in_time(const struct sink *sink) {
    const volatile struct sink_taken *taken = &sink->taken[sink->newest & 1];
    uint32_t behind = taken->rises - sink->rises_made;
    uint64_t ticks = sink->left;
    bool is_right = sink->made != taken->words || sink->is_rest;
    for (uint32_t at = sink->made; at != taken->words && ticks < HAS_MS * WIRE_TICKS_A_MS && is_right; at++) {
        uint32_t value = sink->values[at % WIRE_FIFO];
        bool is_output = (sink->bits[at % WIRE_FIFO] & WORD_OUTPUT) != 0;
        uint64_t lasts = is_output ? WIRE_LEAST_TICKS : wire_ticks(value);
        lasts = wire_is_speed(sink->bits[at % WIRE_FIFO]) ? 0 : lasts;
        behind -= is_output ? 0 : wire_slope(value);
        bool has_rest = taken->rest - at - 1 < WIRE_FIFO;
        is_right = has_rest || lasts == 0 || ticks > AHEAD_TICKS
            || (double)lasts * (double)lasts * behind >= 4398046511104.0;
        ticks += lasts;
    }
    uint64_t silent = device_now() - line_gave_at();
    return is_right && silent < (ticks < HAS_MS * WIRE_TICKS_A_MS ? 1 : HEARS_MS) * WIRE_TICKS_A_MS;
}

static uint64_t real_ms(void) {
    struct timespec moment;
    clock_gettime(CLOCK_MONOTONIC, &moment);
    return (uint64_t)moment.tv_sec * 1000 + (uint64_t)moment.tv_nsec / 1000000;
}

/* Whether the clock may go on by a slice: no word is late for it, or none can come, or it has waited long enough. */
static bool may_go_on(void) {
    static struct sink sink;
    device_look(&sink);
    bool is_early = tempo > 0 && (device_now() - tempo_ticks) / SLICE_TICKS * 100 > (real_ms() - tempo_from) * tempo;
    bool runs = sink.state == SINK_RUNS;
    bool is_asked = sink.is_touched || sink.asked != FAULT_NONE;
    bool hears_nothing = line_is_cut() && (runs || sink.state == SINK_STANDS);
    bool is_in_order = hears_nothing || (runs && (is_asked || is_in_time(&sink)));
    return !is_early && (is_in_order || real_ms() - waited >= (runs ? serves_ms : 1));
}

/* Says the newest answer again where nothing was said for some real time, while by this clock the sink isn't silent: for
 * a player, whose clock is the real one, a sink is deaf after two seconds, in which this one may stand or be slow. */
static void be_heard(void) {
    static unsigned long said;
    static uint64_t said_at;
    if (said == line_sent() && real_ms() - said_at < AGAIN_MS) {
        return;
    }
    if (said == line_sent()) {
        line_say_again();
    }
    said = line_sent();
    said_at = real_ms();
}

/* Lets the clock go on by itself, until a line of the input comes. What is on its way comes in any case, but for frames
 * that say nothing: a sender that is late sends these all the time. */
static void serve(void) {
    struct pollfd on = {STDIN_FILENO, POLLIN, 0};
    while (serves_ms > 0 && poll(&on, 1, 0) == 0) {
        line_take_frames();
        be_heard();
        bool is_on_way = device_takes();
        if (may_go_on()) {
            device_run(SLICE_TICKS);
            waited = real_ms();
        } else if (is_on_way) {
            device_run(SHORT_TICKS);
        } else {
            line_wait(1);
        }
    }
}

/* Places a switch, or says when inputs turn; whether the line says that. */
static bool place_switch(const char *line) {
    static int count;
    unsigned input = 0;
    int axis = 0;
    long sign = 0;
    long at = 0;
    if (sscanf(line, "turn %lu %u", &turns_at, &turned) == 2) {
        return true;
    }
    if (sscanf(line, "switch %u %d %ld %ld", &input, &axis, &sign, &at) != 4 || count == SWITCHES || axis < 0
        || axis > 2) {
        return false;
    }
    switches[count].bit = 1U << input;
    switches[count].axis = axis;
    switches[count].sign = sign;
    switches[count].at = at;
    count++;
    return true;
}

/* Sets how the clock goes on; whether the line says that. */
static bool set_clock(const char *word, unsigned long value) {
    if (strcmp(word, "serve") == 0) {
        serves_ms = value;
    } else if (strcmp(word, "tempo") == 0) {
        tempo = value;
        tempo_from = real_ms();
        tempo_ticks = device_now();
    } else {
        return false;
    }
    return true;
}

static void obey(const char *line) {
    char word[8] = "";
    unsigned long one = 0;
    unsigned long other = 0;
    int got = sscanf(line, "%7s %lu %lu", word, &one, &other);
    if (got == 3 && strcmp(word, "run") == 0) {
        line_receive(other);
        device_run(one);
    } else if (got == 2 && strcmp(word, "inputs") == 0) {
        inputs = (unsigned)one;
    } else if (got == 2 && strcmp(word, "boot") == 0) {
        device_boot((uint16_t)one);
        line_drop_part();
    } else if (got == 2 && strcmp(word, "stray") == 0) {
        device_stray();
    } else if (got == 3 && strcmp(word, "faults") == 0) {
        line_set_faults((uint32_t)one, (uint32_t)other);
    } else if (got == 2 && strcmp(word, "cut") == 0) {
        line_cut(device_now() + one * WIRE_TICKS_A_MS);
    } else if (!(got == 2 && set_clock(word, one)) && !place_switch(line) && !device_obey(line)) {
        bench_give_up("what is to be done?");
    }
    tell_levels();
    printf(". %lu\n", line_sent());
    fflush(stdout);
}

void bench_work(void) {
    char line[80];
    setvbuf(stdin, NULL, _IONBF, 0);
    while (fgets(line, sizeof line, stdin) != NULL) {
        obey(line);
        serve();
    }
}
