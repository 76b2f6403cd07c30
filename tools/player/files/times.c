#define _POSIX_C_SOURCE 200809L
#include "times.h"

#include <errno.h>
#include <fcntl.h>
#include <inttypes.h>
#include <stdio.h>
#include <string.h>
#include <unistd.h>

enum { ROOM = 1 << 16, NUMBER_ROOM = 24 };

static int file = -1;
static int error;
static char text_left[ROOM];
static size_t size_left;

bool times_begin(const char *path, struct cause *why) {
    file = open(path, O_WRONLY | O_CREAT | O_EXCL | O_CLOEXEC, 0600);
    return file >= 0 || because(why, "%s: %s", path, strerror(errno));
}

static void write_left(void) {
    size_t at = 0;
    while (at < size_left && error == 0) {
        ssize_t done = write(file, text_left + at, size_left - at);
        if (done < 0 && errno != EINTR) {
            error = errno;
        }
        at += done > 0 ? (size_t)done : 0;
    }
    size_left = 0;
}

void times_add(int64_t ns, const char *text, size_t size) {
    char number[NUMBER_ROOM];
    if (file < 0) {
        return;
    }
    int digits = snprintf(number, sizeof number, "%" PRId64 " ", ns);
    if (size_left + (size_t)digits + size > ROOM) {
        write_left();
    }
    memcpy(text_left + size_left, number, (size_t)digits);
    size_left += (size_t)digits;
    memcpy(text_left + size_left, text, size);
    size_left += size;
}

int times_end(void) {
    if (file < 0) {
        return 0;
    }
    write_left();
    if (close(file) != 0 && error == 0) {
        error = errno;
    }
    file = -1;
    return error;
}
