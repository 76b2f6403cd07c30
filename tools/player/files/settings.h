/* The settings of a machine, as docs/SETTINGS.md has them. */
#ifndef SETTINGS_H
#define SETTINGS_H

#include <stdbool.h>
#include <stdint.h>

#include "cause.h"

struct settings {
    int64_t step_nm[3];
    int64_t period_us;
    int64_t low_nm[3];
    int64_t high_nm[3];
    int64_t traverse_nm_per_min;
};

/* Reads a file of settings. It takes no settings that `ngc` refuses; of those that `ngc` takes it wants decimal
 * numbers, and keys without escapes. Returns false, with the cause. */
bool settings_read(const char *path, struct settings *settings, struct cause *why);

#endif
