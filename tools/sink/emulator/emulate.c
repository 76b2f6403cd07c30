/* The emulated chip on the bench (../bench.c has its commands): `emulate ELF BOOT`. Besides:
 *     reset          the pin NRST is pulled low
 *     off MS         power is off for so long
 *     battery 0      the number of the boot is lost with the power; 1 for not
 *     fault          the core takes a fault
 *     astray NAME    outside of interrupts the program goes on at this symbol of the ELF, as by an error
 *     set NAME VALUE something of the surroundings (figures.c)
 *     figure NAME    prints `figure NAME VALUE`
 * The pins tell less than the sink knows: words without a step, the tool, and a change that changes no pin aren't
 * printed; a speed is that of the PWM's duty, and 0 while the spindle stands. A violation ends it with status 2, and so
 * does a direction that changes less than 5 us before its step. */
#include <inttypes.h>
#include <stdio.h>
#include <stdlib.h>
#include <string.h>

#include "../bench.h"
#include "../bench_line.h"
#include "board.h"
#include "chip.h"
#include "model.h"
#include "nvic.h"
#include "serial.h"
#include "told.h"

enum { TICK_NS = 125, MS_NS = 1000000, SLICE_TICKS = 400, READS_TICKS = 4000 };
#ifndef STARTS_TICKS
#define STARTS_TICKS 40000
#endif
enum { EMPTY_FRAME = WIRE_HEAD + WIRE_CRC + 2 }; /* bytes of a frame of no words */
enum { LINE_ROOM = 4096 }; /* bytes on their way before a sender waits, as where a computer's buffer is full */
enum { SETUP_NS = 5000, TOGETHER_NS = 1000 }; /* axes whose pins rise within this make one step */

static uint32_t sink_at;     /* where the firmware's RAM has the sink */
static uint64_t came_at;     /* the tick at which a frame that says something was on its way last */
static uint64_t given;       /* bytes for the line, all of them .. */
static uint64_t given_words; /* .. and up to the last frame that says something */
static uint64_t uncounted;   /* ticks in which the chip started: the bench's clock stands meanwhile .. */
static bool is_starting;     /* .. and nobody hears it yet */
static uint32_t levels[PORTS]; /* of port A and on */
static uint32_t duty;
static uint64_t turned[BOARD_AXES]; /* when a direction changed last */
static struct { uint64_t ns; uint8_t steps; bool switches; } waits; /* what changed at a time, until that is over */

static uint64_t tick_of(uint64_t ns) {
    return ns / TICK_NS - uncounted;
}

static uint32_t level_of(struct pin pin) {
    return levels[pin.port - 'A'] >> pin.number & 1;
}

/* The axes that count down. */
static uint8_t down(void) {
    uint32_t axes = 0;
    for (uint32_t axis = 0; axis < BOARD_AXES; axis++) {
        axes |= level_of(board->directions[axis]) << axis;
    }
    return (uint8_t)axes;
}

/* The axis whose step a pin makes, as a bit; 0 for none. */
static uint8_t axis_of(const struct edge *edge) {
    uint32_t axes = 0;
    for (uint32_t axis = 0; axis < BOARD_AXES; axis++) {
        axes |= (uint32_t)board_is(board->steps[axis], (char)edge->port, edge->pin) << axis;
    }
    return (uint8_t)axes;
}

static bool is_switch(const struct edge *edge) {
    const struct pin pins[] = {board->clockwise, board->counter, board->mist, board->flood};
    bool is_one = edge->port == 'P';
    for (size_t each = 0; each < sizeof pins / sizeof pins[0]; each++) {
        is_one = is_one || board_is(pins[each], (char)edge->port, edge->pin);
    }
    return is_one;
}

/* The duty follows with the PWM's next period: of a spindle that stands it says nothing, and what was told isn't told
 * again. */
static void tell_outputs(void) {
    static struct sink_outputs told;
    uint8_t spindle = (uint8_t)(level_of(board->clockwise) | level_of(board->counter) << 1);
    struct sink_outputs outputs = {
        .speed = spindle != 0 ? duty * UINT64_C(24000000000) / board->duty_steps : 0,
        .spindle = spindle,
        .mist = (uint8_t)level_of(board->mist),
        .flood = (uint8_t)level_of(board->flood)};
    bool is_new = outputs.speed != told.speed || outputs.spindle != told.spindle || outputs.mist != told.mist
        || outputs.flood != told.flood;
    told = outputs;
    if (is_new) {
        bench_outputs(tick_of(waits.ns), &outputs);
    }
}

/* Tells what changed at the time that is over. */
static void tell_changes(void) {
    uint8_t steps = waits.steps;
    bool switches = waits.switches;
    waits.steps = 0;
    waits.switches = false;
    if (switches) {
        tell_outputs();
    }
    if (steps != 0) {
        bench_step(tick_of(waits.ns), steps, steps & down());
    }
}

static void set_level(const struct edge *edge) {
    uint32_t bit = 1u << edge->pin;
    uint32_t *port = &levels[edge->port - 'A'];
    *port = edge->level != 0 ? *port | bit : *port & ~bit;
}

/* Drives need a direction some time before its step. */
static void check_direction(const struct edge *edge, uint8_t axes) {
    for (uint32_t axis = 0; axis < BOARD_AXES; axis++) {
        bool is_direction = board_is(board->directions[axis], (char)edge->port, edge->pin);
        bool is_step = (axes >> axis & 1) != 0;
        turned[axis] = is_direction ? edge->ns : turned[axis];
        if (is_step && turned[axis] != 0 && edge->ns - turned[axis] < SETUP_NS) {
            bench_give_up("a direction changes less than 5 us before its step");
        }
    }
}

static void note_edge(const struct edge *edge) {
    uint8_t axis = edge->level != 0 ? axis_of(edge) : 0;
    bool is_together = axis != 0 && waits.steps != 0 && edge->ns - waits.ns < TOGETHER_NS;
    if (edge->ns != waits.ns && !is_together) {
        tell_changes();
        waits.ns = edge->ns;
    }
    check_direction(edge, axis);
    waits.steps |= axis;
    waits.switches = waits.switches || is_switch(edge);
    if (edge->port == 'P') {
        duty = edge->level;
    } else if (edge->port != 'R') {
        set_level(edge);
    }
}

uint64_t device_now(void) {
    return tick_of(model_ns());
}

void device_run(uint64_t ticks) {
    uint8_t heard[SLICE_TICKS];
    uint64_t until = device_now() + ticks;
    while (device_now() < until) {
        uint64_t left = until - device_now();
        if (!model_run((left < SLICE_TICKS ? left : SLICE_TICKS) * TICK_NS)) {
            bench_give_up(told_violation());
        }
        size_t size = serial_heard(heard, NULL, sizeof heard);
        bench_send(heard, is_starting ? 0 : size);
    }
    tell_changes();
}

/* A frame of no words is left out while the line isn't free: as the clock stands a late sender says many of them at the
 * same moment. */
void device_give(const uint8_t *bytes, size_t size) {
    bool says_nothing = size == EMPTY_FRAME || size == 0;
    if (says_nothing && serial_sending() > 0) {
        return;
    }
    serial_send(bytes, size);
    given += size;
    given_words = says_nothing ? given_words : given;
}

/* Bytes have to come over the line, and then the main loop has to read them. */
bool device_takes(void) {
    came_at = given - serial_sending() < given_words ? device_now() : came_at;
    return device_now() < came_at + READS_TICKS;
}

bool device_has_room(void) {
    return serial_sending() < LINE_ROOM;
}

void device_see(uint16_t inputs) {
    model_turn_inputs(inputs);
}

void device_look(struct sink *to) {
    model_leave_handler();
    model_read(sink_at, to, sizeof *to);
}

void device_stray(void) {
    nvic_pend(IRQ_TIMER);
}

void device_boot(uint16_t count) {
    uint64_t from = device_now();
    part_set_boots((uint16_t)(count - 1));
    model_reset();
    is_starting = true;
    device_run(STARTS_TICKS);
    is_starting = false;
    uncounted += device_now() - from;
}

bool device_obey(const char *line) {
    char word[12] = "";
    char name[32] = "";
    unsigned long value = 0;
    int got = sscanf(line, "%11s %31s %lu", word, name, &value);
    if (got == 1 && strcmp(word, "reset") == 0) {
        model_reset();
    } else if (got == 2 && strcmp(word, "off") == 0) {
        model_power_off(strtoul(name, NULL, 10) * MS_NS);
    } else if (got == 2 && strcmp(word, "battery") == 0) {
        model_set("battery", strtoul(name, NULL, 10));
    } else if (got == 1 && strcmp(word, "fault") == 0) {
        model_fault();
    } else if (got == 2 && strcmp(word, "astray") == 0 && model_symbol(name, NULL) != 0) {
        model_go_astray(model_symbol(name, NULL));
    } else if (got == 2 && strcmp(word, "figure") == 0) {
        printf("figure %s %" PRIu64 "\n", name, model_figure(name));
    } else {
        return got == 3 && strcmp(word, "set") == 0 && model_set(name, value);
    }
    tell_changes();
    return true;
}

int main(int count, char **words) {
    uint32_t bytes = 0;
    if (count != 3 || !model_load(words[1])) {
        bench_give_up("emulate ELF BOOT");
    }
    sink_at = model_symbol("sink", &bytes);
    if (bytes != sizeof(struct sink)) {
        bench_give_up("the ELF's sink isn't this one");
    }
    printf("%s\n", line_open());
    fflush(stdout);
    told_edge = note_edge;
    model_power_on();
    device_boot((uint16_t)strtoul(words[2], NULL, 10));
    bench_work();
    return 0;
}
