#include "place.h"

#include <inttypes.h>
#include <stdio.h>
#include <string.h>

static void nm_print(char *text, size_t room, int64_t nm) {
    uint64_t size = nm < 0 ? -(uint64_t)nm : (uint64_t)nm;
    snprintf(text, room, "%s%" PRIu64 ".%06" PRIu64, nm < 0 ? "-" : "", size / 1000000, size % 1000000);
}

void place_print(char *text, size_t room, const int64_t nm[3]) {
    char axis[3][32];
    for (int number = 0; number < 3; number++) {
        nm_print(axis[number], sizeof axis[number], nm[number]);
    }
    snprintf(text, room, "%s %s %s", axis[0], axis[1], axis[2]);
}

bool nm_read(const char *text, size_t size, int64_t *nm) {
    size_t at = size > 0 && (text[0] == '-' || text[0] == '+');
    size_t digits = 0;
    size_t decimals = 0;
    bool has_point = false;
    int64_t sum = 0;
    for (; at < size; at++) {
        if (text[at] == '.' && !has_point) {
            has_point = true;
            continue;
        }
        if (text[at] < '0' || text[at] > '9' || (has_point ? decimals : digits) == (has_point ? 6 : 12)) {
            return false;
        }
        decimals += has_point;
        digits += !has_point;
        sum = sum * 10 + (text[at] - '0');
    }
    if (digits + decimals == 0) {
        return false;
    }
    for (; decimals < 6; decimals++) {
        sum *= 10;
    }
    *nm = text[0] == '-' ? -sum : sum;
    return true;
}

bool place_read(const char *text, size_t size, int64_t nm[3]) {
    const char *end = text + size;
    for (int axis = 0; axis < 3; axis++) {
        const char *stop = axis < 2 ? memchr(text, ' ', (size_t)(end - text)) : end;
        if (stop == NULL || !nm_read(text, (size_t)(stop - text), &nm[axis])) {
            return false;
        }
        text = stop + (axis < 2);
    }
    return true;
}
