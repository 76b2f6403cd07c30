/* The thread of a link to a step sink: it sends, hears, and counts what was made. */
#define _GNU_SOURCE
#include "sink_thread.h"

#include <poll.h>
#include <signal.h>
#include <string.h>
#include <sys/eventfd.h>

#include "sink_serial.h"

enum { POLL_MS = 1 };

struct link sink_link = {.line = -1, .wake = -1};
static struct link *const shared = &sink_link;

static uint32_t clock_ms(void) {
    return (uint32_t)(schedule_now() / 1000000);
}

static void note_change(void) {
    shared->changes++;
    pthread_cond_broadcast(&shared->changed);
    eventfd_write(shared->play->player->wake, 1);
}

/* Notes where the motors were when an input came on. */
static void note_touched(void) {
    words_count(&shared->words, shared->play, shared->sender.sink.touched);
    memcpy(shared->now.touched, shared->play->player->steps, sizeof shared->now.touched);
    shared->now.is_touched = true;
}

/* Counts what the sink has made, and notes what else it says. */
static void heed(void) {
    const struct sink_answer *sink = &shared->sender.sink;
    bool is_own = shared->sender.state == SENDER_LINKED || shared->sender.state == SENDER_ENDED;
    if (is_own && !shared->now.is_touched && (sink->touched != 0 || sink->fault == FAULT_TOUCHED)) {
        note_touched();
    }
    if (is_own) {
        shared->now.dry += (uint16_t)(sink->dry - (uint16_t)shared->words.dry);
        shared->words.dry = sink->dry;
        words_count(&shared->words, shared->play, sink->made);
    }
    shared->now.state = sink->state;
    shared->now.fault = sink->fault;
    shared->now.inputs = sink->inputs;
    shared->now.is_done = words_are_made(&shared->words) && shared->sender.state == SENDER_LINKED
        && sink->made == shared->sender.given && sink->state == SINK_STANDS;
}

static void hear(void) {
    uint8_t bytes[4096];
    int got = serial_read(shared->line, bytes, sizeof bytes);
    for (int at = 0; at < got; at++) {
        sender_read(&shared->sender, bytes[at]);
    }
    shared->is_gone = shared->is_gone || got < 0;
}

/* Writes what waits; whether all of it went. */
bool link_write_waiting(void) {
    int done = shared->size_to_send > 0 ? serial_write(shared->line, shared->to_send, shared->size_to_send) : 0;
    shared->is_gone = shared->is_gone || done < 0;
    if (done > 0) {
        shared->size_to_send -= (size_t)done;
        memmove(shared->to_send, shared->to_send + done, shared->size_to_send);
    }
    return shared->size_to_send == 0;
}

static void speak(void) {
    words_top_up(&shared->words, &shared->sender);
    while (!shared->is_gone && link_write_waiting()) {
        shared->size_to_send = sender_write(&shared->sender, clock_ms(), shared->to_send);
        if (shared->size_to_send == 0) {
            return;
        }
    }
}

/* What may make the one that plays go on. */
static bool is_news(const struct sink_answer *was, uint8_t state) {
    const struct sink_answer *sink = &shared->sender.sink;
    return was->made != sink->made || was->state != sink->state || was->inputs != sink->inputs
        || was->fault != sink->fault || state != shared->sender.state || shared->sender.is_deaf || shared->is_gone;
}

static void *serve(void *unused) {
    (void)unused;
    struct pollfd on[2] = {{shared->line, POLLIN, 0}, {shared->wake, POLLIN, 0}};
    bool is_over = false;
    while (!is_over) {
        eventfd_t events;
        poll(on, 2, POLL_MS);
        eventfd_read(shared->wake, &events);
        pthread_mutex_lock(&shared->lock);
        struct sink_answer was = shared->sender.sink;
        uint8_t state = shared->sender.state;
        shared->is_gone = shared->is_gone || (on[0].revents & (POLLHUP | POLLERR | POLLNVAL)) != 0;
        hear();
        heed();
        speak();
        if (is_news(&was, state)) {
            note_change();
        }
        is_over = shared->ends || shared->is_gone;
        pthread_mutex_unlock(&shared->lock);
    }
    return NULL;
}

void link_make_lock(void) {
    pthread_mutexattr_t how;
    pthread_condattr_t when;
    pthread_mutexattr_init(&how);
    pthread_mutexattr_setprotocol(&how, PTHREAD_PRIO_INHERIT);
    pthread_mutex_init(&shared->lock, &how);
    pthread_condattr_init(&when);
    pthread_condattr_setclock(&when, CLOCK_MONOTONIC);
    pthread_cond_init(&shared->changed, &when);
}

int link_start(void) {
    sigset_t all;
    sigset_t before;
    sigfillset(&all);
    pthread_sigmask(SIG_SETMASK, &all, &before);
    int error = pthread_create(&shared->thread, NULL, serve, NULL);
    pthread_sigmask(SIG_SETMASK, &before, NULL);
    return error;
}
