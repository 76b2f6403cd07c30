#define _GNU_SOURCE
#include "askers.h"

#include <errno.h>
#include <pthread.h>
#include <string.h>
#include <unistd.h>

enum { MOST_ASKERS = 16 };

/* Those who asked. */
static struct asker {
    struct sockaddr_un name;
    socklen_t named; /* 0 where there is none */
} askers[MOST_ASKERS];
static pthread_mutex_t lock = PTHREAD_MUTEX_INITIALIZER;

void askers_note(const struct sockaddr_un *name, socklen_t named) {
    static int next = 0;
    pthread_mutex_lock(&lock);
    bool is_known = named <= sizeof(sa_family_t);
    for (int at = 0; at < MOST_ASKERS && !is_known; at++) {
        is_known = askers[at].named == named && memcmp(&askers[at].name, name, named) == 0;
    }
    if (!is_known) {
        askers[next].name = *name;
        askers[next].named = named;
        next = (next + 1) % MOST_ASKERS;
    }
    pthread_mutex_unlock(&lock);
}

/* Whether a socket of this name is still open. */
static bool is_there(const struct asker *asker) {
    int probe = socket(AF_UNIX, SOCK_DGRAM | SOCK_CLOEXEC, 0);
    int error = connect(probe, (const struct sockaddr *)&asker->name, asker->named) == 0 ? 0 : errno;
    close(probe);
    return error == 0 || error == EPERM || error == EACCES; /* it talks to the player alone */
}

bool askers_are_gone(void) {
    bool is_one_there = false;
    pthread_mutex_lock(&lock);
    for (int at = 0; at < MOST_ASKERS; at++) {
        if (askers[at].named > 0 && !is_there(&askers[at])) {
            askers[at].named = 0;
        }
        is_one_there |= askers[at].named > 0;
    }
    pthread_mutex_unlock(&lock);
    return !is_one_there;
}
