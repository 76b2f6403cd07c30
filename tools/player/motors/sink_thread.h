/* What the link to a step sink shares between its thread and the one that plays. */
#ifndef SINK_THREAD_H
#define SINK_THREAD_H

#include <pthread.h>

#include "../../sink/sender.h"
#include "sink_link.h"
#include "sink_words.h"

enum {
    LINK_WINDOW_TICKS = 20 * WIRE_TICKS_A_MS, /* how late words may be */
    LINK_ROOM = 4 * WIRE_LINE
};

struct link {
    /* Set before the thread begins. */
    struct play *play;
    const char *path;
    int line; /* -1 where there is none */
    int wake;
    pthread_t thread;
    pthread_mutex_t lock;
    pthread_cond_t changed;
    /* Under `lock`. */
    struct sender sender;
    struct words words;
    struct link_state now;
    uint8_t to_send[LINK_ROOM]; /* so many bytes that the line had no room for */
    size_t size_to_send;
    unsigned changes;
    bool is_gone; /* the line */
    bool ends;
};

extern struct link sink_link;

/* Makes the lock, whose holder gets the rank of who waits for it, and a condition of the monotonic clock. */
void link_make_lock(void);

/* Starts the thread, which has the rank of the one that plays; no signal comes to it. Returns 0, or the number of an
 * error. */
int link_start(void);

/* Writes what waits; whether all of it went. `lock` is held. */
bool link_write_waiting(void);

#endif
