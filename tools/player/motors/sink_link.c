#define _GNU_SOURCE
#include "sink_link.h"

#include <errno.h>
#include <string.h>
#include <sys/eventfd.h>
#include <time.h>
#include <unistd.h>

#include "sink_serial.h"
#include "sink_thread.h"

enum {
    BEGINS_MS = 5000 * SENDER_PATIENCE, /* a sink may take so long to answer, and to end what another player gave */
    STOPS_MS = 3000 * SENDER_PATIENCE,
    LOOKS_MS = 5,
    ASKS_MS = 50,   /* a stop is asked for again after so long */
    MARK_BYTES = 40 /* bits of a mark that count OUT's bytes */
};

static struct link *const shared = &sink_link;
static unsigned seen; /* changes that link_await has told of */

/* A number that no other sender has: by the clock, and not 0. */
static uint32_t new_token(void) {
    struct timespec moment;
    clock_gettime(CLOCK_REALTIME, &moment);
    return ((uint32_t)moment.tv_sec * 1000000 + (uint32_t)(moment.tv_nsec / 1000)) | 1;
}

/* Waits for a change until a moment; the lock is held. */
static bool wait_changed(int64_t until) {
    struct timespec moment = {(time_t)(until / 1000000000), (long)(until % 1000000000)};
    unsigned before = shared->changes;
    int error = 0;
    while (shared->changes == before && error == 0) {
        error = pthread_cond_timedwait(&shared->changed, &shared->lock, &moment);
    }
    return error == 0;
}

/* Why there is no session. */
static bool refuse(bool is_heard, struct cause *why) {
    return is_heard ? because(why, "%s: the step sink doesn't come to rest", shared->path)
                    : because(why, "%s: no step sink answers: is it switched on, and is baud that of its port?",
                              shared->path);
}

/* Waits until the sink's last session is over. */
static bool hear_left(struct sink_answer *left, struct cause *why) {
    const struct sender *sender = &shared->sender;
    int64_t until = schedule_now() + INT64_C(1000000) * BEGINS_MS;
    bool is_over = false;
    pthread_mutex_lock(&shared->lock);
    while (!is_over && schedule_now() < until && !shared->is_gone) {
        wait_changed(schedule_now() + INT64_C(1000000) * LOOKS_MS);
        is_over = sender->is_heard && sender->sink.state != SINK_STANDS && sender->sink.state != SINK_RUNS;
    }
    bool is_heard = sender->is_heard;
    *left = sender->sink;
    pthread_mutex_unlock(&shared->lock);
    return is_over || refuse(is_heard, why);
}

bool link_open(struct play *of, struct sink_answer *left, struct cause *why) {
    const struct sink_settings *settings = &of->machine.sink;
    shared->play = of;
    shared->path = settings->line;
    link_make_lock();
    shared->wake = eventfd(0, EFD_NONBLOCK | EFD_CLOEXEC);
    shared->line = serial_open(shared->path, settings->baud, why);
    if (shared->line < 0) {
        return false;
    }
    sender_listen(&shared->sender);
    words_begin(&shared->words, shared->play);
    int error = link_start();
    return error == 0 ? hear_left(left, why) : because(why, "no thread: %s", strerror(error));
}

uint64_t link_mark(const struct player *player) {
    const struct source *source = &player->source;
    struct file_mark file = source_mark(source, 0);
    uint8_t bytes[24];
    if (source->is_pipe) {
        return WIRE_NO_MARK;
    }
    wire_put64(bytes, file.inode);
    wire_put64(bytes + 8, file.born_ns);
    wire_put64(bytes + 16, wire_crc((const uint8_t *)player->out, strlen(player->out)));
    return (uint64_t)wire_crc(bytes, sizeof bytes) << MARK_BYTES | (player->bytes & ((UINT64_C(1) << MARK_BYTES) - 1));
}

bool link_begin(const struct sink_inputs *inputs, struct cause *why) {
    int64_t until = schedule_now() + INT64_C(1000000) * BEGINS_MS;
    pthread_mutex_lock(&shared->lock);
    sender_begin(&shared->sender, new_token(), inputs, LINK_WINDOW_TICKS, link_mark(shared->play->player));
    words_begin(&shared->words, shared->play);
    shared->now = (struct link_state){.dry = shared->now.dry};
    bool has_begun = false;
    bool is_in_time = true;
    while (!has_begun && is_in_time && !shared->is_gone) {
        is_in_time = wait_changed(until);
        has_begun = shared->sender.state == SENDER_LINKED || shared->sender.state == SENDER_ENDED;
    }
    bool is_heard = shared->sender.is_heard;
    pthread_mutex_unlock(&shared->lock);
    return has_begun || refuse(is_heard, why);
}

bool link_wants(void) {
    pthread_mutex_lock(&shared->lock);
    bool wants = words_have_room(&shared->words, &shared->sender) && sender_wants(&shared->sender);
    pthread_mutex_unlock(&shared->lock);
    return wants;
}

void link_give(const struct move *move, uint64_t ns, uint64_t ramp, bool is_rest, bool is_of_out) {
    pthread_mutex_lock(&shared->lock);
    words_give(&shared->words, &shared->sender, move, ns, ramp, is_rest, is_of_out);
    shared->now.is_done = false;
    pthread_mutex_unlock(&shared->lock);
}

bool link_speed(uint64_t speed) {
    pthread_mutex_lock(&shared->lock);
    bool is_given = sender_speed(&shared->sender, speed) == GIVE_TAKEN;
    shared->now.is_done = shared->now.is_done && !is_given;
    pthread_mutex_unlock(&shared->lock);
    return is_given;
}

struct outputs link_outputs(void) {
    return shared->words.outputs;
}

struct place_in_out link_place(void) {
    return (struct place_in_out){shared->words.lines, shared->words.bytes};
}

void link_await(int ms) {
    eventfd_write(shared->wake, 1);
    pthread_mutex_lock(&shared->lock);
    if (shared->changes == seen) {
        wait_changed(schedule_now() + INT64_C(1000000) * ms);
    }
    seen = shared->changes;
    pthread_mutex_unlock(&shared->lock);
}

struct link_state link_look(void) {
    pthread_mutex_lock(&shared->lock);
    struct link_state state = shared->now;
    pthread_mutex_unlock(&shared->lock);
    return state;
}

bool link_is_over(const char **word, const char **text) {
    static const char *const of_faults[] = {"sink", "silent", "word", "asked", "touched", "input", "dead",
                                            "hung"};
    pthread_mutex_lock(&shared->lock);
    const struct sender *sender = &shared->sender;
    bool is_reset = sender->state == SENDER_RESET;
    bool is_over = shared->is_gone || is_reset || sender->is_deaf || sender->state == SENDER_ENDED;
    *word = shared->is_gone ? "cut" : is_reset ? "reset" : sender->is_deaf ? "deaf" : of_faults[sender->sink.fault];
    *text = shared->is_gone ? "the line to the sink is gone" : sender_why(sender);
    pthread_mutex_unlock(&shared->lock);
    return is_over;
}

/* Puts a frame that stops behind what is to be sent. */
static void ask_to_stop(bool is_dead) {
    if (shared->size_to_send + WIRE_LINE <= LINK_ROOM) {
        shared->size_to_send += sender_stop(&shared->sender, is_dead, shared->to_send + shared->size_to_send);
        link_write_waiting();
    }
}

void link_stop(bool is_dead) {
    int64_t until = schedule_now() + INT64_C(1000000) * STOPS_MS;
    int64_t asks = 0;
    pthread_mutex_lock(&shared->lock);
    while (!shared->is_gone && shared->sender.state == SENDER_LINKED && schedule_now() < until) {
        if (schedule_now() >= asks) {
            ask_to_stop(is_dead);
            asks = schedule_now() + INT64_C(1000000) * ASKS_MS;
        }
        wait_changed(asks);
    }
    pthread_mutex_unlock(&shared->lock);
}

bool link_switch_off(void) {
    int64_t until = schedule_now() + INT64_C(1000000) * STOPS_MS;
    pthread_mutex_lock(&shared->lock);
    if (shared->sender.state == SENDER_LINKED) {
        words_switch_off(&shared->words, &shared->sender);
    }
    const struct sender *sender = &shared->sender;
    bool is_in_time = true;
    while (!shared->is_gone && sender->state == SENDER_LINKED && sender->sink.made != sender->given && is_in_time) {
        is_in_time = wait_changed(until);
    }
    bool is_off = !shared->is_gone && !sender->is_deaf && is_in_time;
    pthread_mutex_unlock(&shared->lock);
    return is_off;
}

/* Ends the session; one that is over for a fault, and is counted, by a new one. */
static void leave(void) {
    static const struct sink_inputs none;
    struct cause why;
    pthread_mutex_lock(&shared->lock);
    bool is_over = shared->sender.state == SENDER_ENDED && shared->sender.sink.fault != FAULT_ASKED;
    pthread_mutex_unlock(&shared->lock);
    if (!is_over || link_begin(&none, &why)) {
        link_stop(false);
    }
}

void link_close(void) {
    if (shared->line < 0) {
        return;
    }
    leave();
    pthread_mutex_lock(&shared->lock);
    shared->ends = true;
    pthread_mutex_unlock(&shared->lock);
    pthread_join(shared->thread, NULL);
    close(shared->line);
    shared->line = -1;
}
