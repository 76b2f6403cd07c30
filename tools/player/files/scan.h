/* Reads text piece by piece. What isn't there is left alone. */
#ifndef SCAN_H
#define SCAN_H

#include <stdbool.h>
#include <stddef.h>
#include <stdint.h>

struct scan {
    const char *at;
    const char *end;
};

/* Whether a word comes next; it is passed then. */
bool scan_word(struct scan *scan, const char *word);

/* Whether a whole number of at most so many digits comes next, without zeros before it and at most 2^64 - 1; it is
 * passed then. */
bool scan_whole(struct scan *scan, size_t most_digits, uint64_t *value);

/* Whether nothing is left. */
bool scan_is_over(const struct scan *scan);

#endif
