/* The file of --times: each line of OUT behind the nanosecond, from the start, at which it is due. */
#ifndef TIMES_H
#define TIMES_H

#include <stdbool.h>
#include <stddef.h>
#include <stdint.h>

#include "cause.h"

/* Makes the file, which is a new one. Returns false, with the cause. */
bool times_begin(const char *path, struct cause *why);

/* Writes a line with its newline, if there is a file. */
void times_add(int64_t ns, const char *text, size_t size);

/* Writes what is left. Returns 0, or the number of an error: then lines are missing. */
int times_end(void);

#endif
