/* The sink itself on the bench (bench.c has its commands): `sink_posix BOOT`. Besides:
 *     hang MS        the main loop doesn't come by for so long */
#include <stdio.h>
#include <stdlib.h>
#include <string.h>

#include "bench.h"
#include "bench_line.h"
#include "sink_port.h"

enum { POLL_TICKS = WIRE_TICKS_A_MS, ROOM = 65536, WATCHDOG_MS = 100 };

static struct sink sink;
static uint64_t now;
static uint64_t due;      /* when sink_make is called, if the timer runs */
static uint64_t poll_due;
static uint64_t watched;  /* when the watchdog was told last */
static uint64_t hangs_until;
static bool is_timed;
static uint16_t inputs;
static uint8_t came[ROOM]; /* bytes that came, and were not yet read */
static size_t begin;
static size_t end;

void sink_port_timer(uint32_t ticks) {
    if (is_timed) {
        bench_give_up("the timer runs already");
    }
    is_timed = true;
    due = now + ticks;
}

void sink_port_pins(uint8_t steps, uint8_t down, const struct sink_outputs *outputs) {
    if (outputs == NULL) {
        bench_step(now, steps, down);
    } else {
        bench_outputs(now, outputs);
    }
}

uint16_t sink_port_inputs(void) {
    return inputs;
}

int sink_port_read(void) {
    if (begin == end) {
        return -1;
    }
    begin++;
    return came[begin - 1];
}

void sink_port_write(const uint8_t *bytes, size_t size) {
    bench_send(bytes, size);
}

void sink_port_watchdog(void) {
    watched = now;
}

uint64_t device_now(void) {
    return now;
}

void device_give(const uint8_t *bytes, size_t size) {
    memmove(came, came + begin, end - begin);
    end -= begin;
    begin = 0;
    if (size > ROOM - end) {
        bench_give_up("more came than there is room for");
    }
    memcpy(came + end, bytes, size);
    end += size;
}

bool device_takes(void) {
    if (begin != end) {
        sink_poll(&sink, (uint32_t)now);
    }
    return false;
}

bool device_has_room(void) {
    return true;
}

void device_see(uint16_t levels) {
    inputs = levels;
}

void device_look(struct sink *to) {
    *to = sink;
}

bool device_obey(const char *line) {
    unsigned ms = 0;
    bool is_hang = sscanf(line, "hang %u", &ms) == 1;
    hangs_until = is_hang ? now + ms * UINT64_C(1) * WIRE_TICKS_A_MS : hangs_until;
    return is_hang;
}

/* The chip starts: its pins are off by themselves. */
void device_boot(uint16_t count) {
    is_timed = false;
    sink_start(&sink, count, (uint32_t)now);
}

void device_stray(void) {
    if (!is_timed) {
        sink_make(&sink);
    }
}

/* The main loop comes by, if it doesn't hang. */
static void poll(void) {
    if (now >= hangs_until) {
        sink_poll(&sink, (uint32_t)now);
    }
    poll_due += POLL_TICKS;
}

/* The chip's main loop and its timer, in the order of their times. */
void device_run(uint64_t ticks) {
    uint64_t until = now + ticks;
    while ((is_timed && due <= until) || poll_due <= until) {
        bool is_make = is_timed && due <= poll_due;
        now = is_make ? due : poll_due;
        if (is_make) {
            uint32_t after = sink_make(&sink);
            is_timed = after > 0;
            due += after;
        } else {
            poll();
        }
        if (now - watched > WATCHDOG_MS * WIRE_TICKS_A_MS) {
            bench_give_up("the watchdog bit");
        }
    }
    now = until;
}

int main(int count, char **words) {
    if (count != 2) {
        bench_give_up("sink_posix BOOT");
    }
    printf("%s\n", line_open());
    fflush(stdout);
    device_boot((uint16_t)strtoul(words[1], NULL, 10));
    bench_work();
    return 0;
}
