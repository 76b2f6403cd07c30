/* Pins that drive nothing: they write to a file what they would do. A builder replaces this file. */
#define _GNU_SOURCE
#include "pins.h"

#include <errno.h>
#include <fcntl.h>
#include <string.h>
#include <sys/file.h>
#include <sys/stat.h>
#include <unistd.h>

static int file = -1;

static int write_all(const char *text, size_t size) {
    while (size > 0) {
        ssize_t written = write(file, text, size);
        if (written < 0 && errno != EINTR) {
            return errno;
        }
        text += written > 0 ? written : 0;
        size -= written > 0 ? (size_t)written : 0;
    }
    return 0;
}

/* Whether a file holds pins: nothing, or a line of them first. */
static bool holds_pins(const char *path) {
    char text[LONGEST_LINE + 1];
    struct line line;
    struct cause why;
    int begun = open(path, O_RDONLY | O_CLOEXEC);
    ssize_t size = 0;
    do {
        size = read(begun, text, sizeof text);
    } while (size < 0 && errno == EINTR);
    if (begun >= 0) {
        close(begun);
    }
    const char *stop = size > 0 ? memchr(text, '\n', (size_t)size) : NULL;
    if (size == 0) {
        return true;
    }
    if (stop == NULL) {
        return false;
    }
    size_t length = (size_t)(stop - text);
    return (length == 3 && memcmp(text, "off", 3) == 0) || line_read(text, length, 1, &line, &why);
}

static bool take_file(const char *path, struct cause *why) {
    if (flock(file, LOCK_EX | LOCK_NB) != 0) {
        return because(why, "%s: another process holds it: the pins need a file of their own", path);
    }
    if (!holds_pins(path)) {
        return because(why, "%s: it holds something else than pins, and stays as it is: name a new file", path);
    }
    return true;
}

bool pins_begin(const char *path, const char *const *others, struct cause *why) {
    struct stat what;
    struct stat other;
    if (path == NULL) {
        return true;
    }
    bool is_there = stat(path, &what) == 0;
    for (; *others != NULL; others++) {
        if (is_there && stat(*others, &other) == 0 && what.st_dev == other.st_dev && what.st_ino == other.st_ino) {
            return because(why, "%s: it is %s too: the pins need a file of their own", path, *others);
        }
    }
    if (is_there && S_ISBLK(what.st_mode)) {
        return because(why, "%s: a disk can't stand for the pins", path);
    }
    file = open(path, O_WRONLY | O_CREAT | O_APPEND | O_CLOEXEC | O_NONBLOCK, 0600);
    if (file < 0 && errno == ENXIO) {
        return because(why, "%s: nobody reads this pipe yet", path);
    }
    if (file < 0 || fstat(file, &what) != 0 || fcntl(file, F_SETFL, O_APPEND) != 0) { /* a write waits for room */
        return because(why, "%s: %s", path, strerror(errno));
    }
    if (S_ISREG(what.st_mode) && !take_file(path, why)) {
        close(file);
        file = -1;
        return false;
    }
    return true;
}

int pins_set(const struct line *line, const char *text, size_t size) {
    (void)line;
    return file < 0 ? 0 : write_all(text, size);
}

int pins_speed(const struct outputs *outputs) {
    char text[OUTPUTS_ROOM + 1];
    size_t size = outputs_print(text, OUTPUTS_ROOM, outputs);
    text[size] = '\n';
    return file < 0 ? 0 : write_all(text, size + 1);
}

int pins_off(void) {
    return file < 0 ? 0 : write_all("off\n", 4);
}
