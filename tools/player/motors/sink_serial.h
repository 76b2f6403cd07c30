/* The serial line to a step sink. */
#ifndef SINK_SERIAL_H
#define SINK_SERIAL_H

#include <stdbool.h>
#include <stddef.h>
#include <stdint.h>

#include "cause.h"

/* Whether a line may have so many baud. */
bool serial_has_rate(int64_t baud);

/* Opens a line for this process alone, 8 bits without parity, all of which go through as they are; what came before is
 * dropped. Its file, or -1 with the cause. */
int serial_open(const char *path, int baud, struct cause *why);

/* Reads what came, without waiting: how many bytes, or -1 where the line is gone. */
int serial_read(int line, uint8_t *bytes, size_t room);

/* Writes what goes without waiting: how many bytes, or -1 where the line is gone. */
int serial_write(int line, const uint8_t *bytes, size_t size);

#endif
