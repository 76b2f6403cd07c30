/* The bench's end of the line: a pseudo terminal, and what befalls frames on their way. */
#ifndef BENCH_LINE_H
#define BENCH_LINE_H

#include <stdbool.h>
#include <stddef.h>
#include <stdint.h>

/* Opens the terminal; its path. Its other end stays open, so that it can be closed and opened. */
const char *line_open(void);

/* Of a thousand frames so many are lost, or damaged, or doubled, each way, by chance from a seed. */
void line_set_faults(uint32_t seed, uint32_t rate);

/* Nothing comes through before this tick. */
void line_cut(uint64_t until);

bool line_is_cut(void);

/* Waits until so many bytes have come in all, and gives them to the device as they came. */
void line_receive(unsigned long bytes);

/* Gives the device the frames that have come, but for what befalls them. */
void line_take_frames(void);

/* Drops what the device has sent of a frame that isn't whole. */
void line_drop_part(void);

/* Sends the newest whole frame of the device once more, if it came through in the last 20 ms. */
void line_say_again(void);

/* Waits until something comes over the line or the standard input, for at most so many milliseconds. */
void line_wait(int ms);

/* Bytes that were sent in all; the tick at which something last came through. */
unsigned long line_sent(void);
uint64_t line_gave_at(void);

#endif
