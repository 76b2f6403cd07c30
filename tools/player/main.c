/* The player for motors: carries out the lines of OUT, each in its time, and keeps what was carried out.
 *
 *     make
 *
 * docs/tools/player.md says what it does. What drives the motors is pins.c, which a builder replaces. Nothing is
 * allocated once it plays. */
#define _GNU_SOURCE
#include <errno.h>
#include <fcntl.h>
#include <inttypes.h>
#include <sched.h>
#include <signal.h>
#include <stdio.h>
#include <string.h>
#include <sys/eventfd.h>
#include <sys/prctl.h>
#include <unistd.h>

#include "answers.h"
#include "beginning.h"
#include "going.h"
#include "motors.h"
#include "play.h"
#include "times.h"
#include "version.h"
#include "waits.h"

enum { NS_PER_MS = 1000000 };

static struct player player = {.socket = -1, .wake = -1, .keep = -1, .stopped = "", .tool = NO_TOOL, .percent = 100,
                               .spindle_percent = 100, .last = UINT64_MAX};

static int fail(const struct cause *why) {
    say("player: %s", why->text);
    return 2;
}

/* A terminal that is closed may say so twice. */
static void stop(int number) {
    if (number == SIGHUP) {
        stop_at_rest();
    } else {
        stop_soon();
    }
}

/* Signals come to this thread alone, before which they wake it. */
static void heed_signals(void) {
    const struct sigaction heed = {.sa_handler = stop};
    const struct sigaction ignore = {.sa_handler = SIG_IGN};
    struct sigaction before;
    sigaction(SIGINT, &heed, NULL);
    sigaction(SIGTERM, &heed, NULL);
    sigaction(SIGQUIT, &heed, NULL);
    sigaction(SIGPIPE, &ignore, NULL);
    sigaction(SIGHUP, NULL, &before);
    if (before.sa_handler != SIG_IGN) { /* as under nohup */
        sigaction(SIGHUP, &heed, NULL);
    }
}

/* The other threads have no rank of the real-time scheduler: only the pulses have to be in time. */
static bool begin_threads(pthread_t *keeper, pthread_t *answers, struct cause *why) {
    const struct sched_param no_rank = {0};
    pthread_attr_t how;
    sigset_t all;
    sigset_t before;
    pthread_attr_init(&how);
    pthread_attr_setinheritsched(&how, PTHREAD_EXPLICIT_SCHED);
    pthread_attr_setschedpolicy(&how, SCHED_OTHER);
    pthread_attr_setschedparam(&how, &no_rank);
    sigfillset(&all);
    pthread_sigmask(SIG_SETMASK, &all, &before);
    int error = pthread_create(keeper, &how, record_keep, &player);
    if (error == 0 && player.socket >= 0) {
        error = pthread_create(answers, &how, answers_give, &player);
    }
    pthread_sigmask(SIG_SETMASK, &before, NULL);
    return error == 0 || because(why, "no thread: %s", strerror(error));
}

/* The last record. */
static bool keep_last(const char *position) {
    static struct record last;
    player.is_over_sink = false;
    player_record(&player, &last);
    int error = keeper_write(&player.keeper, &last);
    if (error != 0) {
        say("player: %s: %s", position, strerror(error));
    }
    return error == 0;
}

/* What was carried out, how well, and where the machine stands; whether that could be said. */
static bool tell(const struct play *play) {
    const struct counts *counts = &play->counts;
    static char out[CAUSE_ROOM];
    char place[PLACE_ROOM];
    int64_t nm[3];
    player_place(&player, nm);
    place_print(place, sizeof place, nm);
    show_text(out, sizeof out, play->options->out);
    printf("%s: %" PRIu64 " lines carried out, %" PRIu64 " pulses, %" PRIu64 " waits, %" PRIu64 " switches\n",
           out, counts->pulses + counts->waits + counts->switches, counts->pulses, counts->waits,
           counts->switches);
    if (play->schedule.is_timed) {
        const struct schedule *schedule = &play->schedule;
        printf("late at most %" PRId64 " us, slower by %" PRId64 ".%" PRId64 " ms in all; the record was behind by at"
               " most %u ms\n", schedule->latest / 1000, schedule->slower / NS_PER_MS,
               schedule->slower % NS_PER_MS / 100000, atomic_load(&player.worst_ms));
    }
    if (counts->dry > 0) {
        printf("OUT ran dry %" PRIu64 " time%s; the motors came to rest, and went on once more came\n", counts->dry,
               counts->dry > 1 ? "s" : "");
    }
    printf("reference %s\n", place);
    if (fflush(stdout) != 0) {
        say("player: standard output: %s", strerror(errno));
        return false;
    }
    return true;
}

/* The rest of the file of --times; whether all of it is written. */
static bool end_times(const char *path) {
    int error = times_end();
    if (error != 0) {
        say("player: %s: %s", path, strerror(error));
    }
    return error == 0;
}

/* A standard stream that is closed is /dev/null from here on, before a file can take its number. */
static void open_streams(void) {
    for (int number = STDIN_FILENO; number <= STDERR_FILENO; number++) {
        if (fcntl(number, F_GETFD) < 0) {
            open("/dev/null", O_RDWR);
        }
    }
}

/* A thread that waits for the lock lends its rank to the one that holds it. */
static void make_lock(void) {
    pthread_mutexattr_t how;
    pthread_mutexattr_init(&how);
    pthread_mutexattr_setprotocol(&how, PTHREAD_PRIO_INHERIT);
    pthread_mutex_init(&player.lock, &how);
}

/* Plays with its threads. */
static int run(struct play *play, const struct options *options) {
    struct cause why;
    pthread_t keeper;
    pthread_t answers;
    play_begin(play);
    if (!begin_threads(&keeper, &answers, &why)) {
        return fail(&why);
    }
    schedule_start(&play->schedule, !options->is_untimed && play->motors->keep_time, options->machine == NULL);
    int status = play_out(play);
    atomic_store(&player.over, true);
    pthread_join(keeper, NULL);
    if (player.socket >= 0) {
        pthread_join(answers, NULL);
    }
    bool is_kept = keep_last(options->position);
    play->motors->end();
    return end_times(options->times) && is_kept && tell(play) ? status : 2;
}

int main(int count, char **given) {
    static struct play play;
    struct options options;
    struct settings settings = {0};
    struct cause why;
    open_streams();
    if (version_is_asked(count, given)) {
        return version_tell();
    }
    if (!options_read(count, given, &options, &why)) {
        return fail(&why);
    }
    make_lock();
    heed_signals();
    prctl(PR_SET_TIMERSLACK, 1, 0, 0, 0);
    player.wake = eventfd(0, EFD_NONBLOCK | EFD_CLOEXEC);
    player.keep = eventfd(0, EFD_NONBLOCK | EFD_CLOEXEC);
    bool has_begun = player_begin(&player, &options, &settings, &play.machine, &why);
    play.player = &player;
    play.options = &options;
    play.least_us = (uint64_t)settings.period_us;
    motors_choose(&play);
    has_begun = has_begun && play.motors->open(&play, &why) && alarm_begin(&play, &why)
        && (!options.goes || going_prepare(&play, &settings, &why))
        && player_keep_first(&player, &why) && play.motors->begin(&play, &why);
    int status = has_begun ? run(&play, &options) : fail(&why);
    if (player.socket >= 0) {
        unlink(options.socket);
    }
    return status;
}
