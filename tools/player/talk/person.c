#define _POSIX_C_SOURCE 200809L
#include "person.h"

#include <errno.h>
#include <poll.h>
#include <string.h>
#include <strings.h>
#include <unistd.h>

static bool is_gone;
static char answer[8]; /* what is typed of one so far; a longer one is no yes */
static size_t answer_size;

/* What is typed in so many milliseconds. While another program has the terminal nothing is read, as that would stop
 * this process. */
static ssize_t typed(char *keys, size_t room, int milliseconds) {
    struct pollfd on = {STDIN_FILENO, POLLIN, 0};
    if (is_gone || (isatty(STDIN_FILENO) && tcgetpgrp(STDIN_FILENO) != getpgrp())) {
        poll(NULL, 0, milliseconds);
        return 0;
    }
    if (poll(&on, 1, milliseconds) <= 0) {
        return 0;
    }
    ssize_t size = read(STDIN_FILENO, keys, room);
    is_gone = size == 0 || (size < 0 && errno != EINTR && errno != EAGAIN);
    return size > 0 ? size : 0;
}

void person_forget(void) {
    char keys[256];
    while (typed(keys, sizeof keys, 0) > 0) {
    }
    answer_size = 0;
}

enum answer person_answers(int milliseconds) {
    char keys[256];
    ssize_t size = typed(keys, sizeof keys, milliseconds);
    for (ssize_t at = 0; at < size; at++) {
        if (keys[at] == '\n') {
            bool is_yes = answer_size == 3 && strncasecmp(answer, "yes", 3) == 0;
            return is_yes ? YES : ANOTHER;
        }
        if (keys[at] != ' ' && keys[at] != '\r' && answer_size < sizeof answer) {
            answer[answer_size] = keys[at];
            answer_size++;
        }
    }
    return is_gone ? ANOTHER : NO_ANSWER;
}

bool person_has_pressed(int milliseconds) {
    char keys[256];
    ssize_t size = typed(keys, sizeof keys, milliseconds);
    return size > 0 && memchr(keys, '\n', (size_t)size) != NULL;
}

bool person_is_gone(void) {
    return is_gone;
}
