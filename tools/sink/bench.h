/* A bench for tests, with a sink on it: a pseudo terminal is the serial line, and the clock goes on only as it is told
 * to. sink_posix.c puts the sink itself on it, emulator/emulate.c a chip that runs its firmware. */
#ifndef BENCH_H
#define BENCH_H

#include <stdbool.h>
#include <stddef.h>
#include <stdint.h>

#include "sink.h"

/* What is on the bench. Its times are ticks of 1/8 us. */
uint64_t device_now(void);
void device_run(uint64_t ticks);      /* lets the clock go on by so many */
void device_boot(uint16_t count);     /* starts it, or starts it again, with this number of its boot */
void device_stray(void);              /* its timer calls sink_make while it isn't to */
void device_see(uint16_t levels);     /* its inputs have these levels from now on */
void device_look(struct sink *to);    /* what the sink is: for the bench's clock alone */
bool device_obey(const char *line);   /* does a line of its own; false where it has no such line */

/* Bytes come over the line: a frame, or several. Takes what has come; whether its clock has to go on for that. */
void device_give(const uint8_t *bytes, size_t size);
bool device_takes(void);
bool device_has_room(void);           /* whether the line takes more: where it doesn't, a sender waits */

/* What the device tells the bench: its pins made a step, or switched; it sends bytes. */
void bench_step(uint64_t tick, uint8_t steps, uint8_t down);
void bench_outputs(uint64_t tick, const struct sink_outputs *outputs);
void bench_send(const uint8_t *bytes, size_t size);

/* Ends with status 2. */
void bench_give_up(const char *what);

/* Does what the lines of its input say, until that ends; bench.c has them. */
void bench_work(void);

#endif
