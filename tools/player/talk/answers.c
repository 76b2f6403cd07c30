#define _GNU_SOURCE
#include "answers.h"

#include <errno.h>
#include <inttypes.h>
#include <poll.h>
#include <stdio.h>
#include <string.h>
#include <sys/eventfd.h>
#include <sys/socket.h>
#include <sys/stat.h>
#include <sys/un.h>
#include <unistd.h>

#include "askers.h"
#include "home.h"
#include "off.h"
#include "orders.h"
#include "scan.h"
#include "schedule.h"

enum { QUESTION_ROOM = 192, LOOKS_MS = 50 };

/* Removes a socket to which nobody listens any more. */
static bool remove_stale(const char *path, const struct sockaddr_un *address, struct cause *why) {
    struct stat what;
    if (stat(path, &what) != 0) {
        return true;
    }
    if (!S_ISSOCK(what.st_mode)) {
        return because(why, "%s: it is there, and is no socket", path);
    }
    int probe = socket(AF_UNIX, SOCK_DGRAM | SOCK_CLOEXEC, 0);
    int error = connect(probe, (const struct sockaddr *)address, sizeof *address) == 0 ? 0 : errno;
    close(probe);
    if (error == 0) {
        return because(why, "%s: another player listens there", path);
    }
    if (error != ECONNREFUSED) {
        return because(why, "%s: no player's socket: %s", path, strerror(error));
    }
    unlink(path);
    return true;
}

bool answers_open(struct player *player, const char *path, struct cause *why) {
    struct sockaddr_un address = {.sun_family = AF_UNIX};
    if (strlen(path) >= sizeof address.sun_path) {
        return because(why, "%s: too long a path for a socket", path);
    }
    memcpy(address.sun_path, path, strlen(path));
    if (!remove_stale(path, &address, why)) {
        return false;
    }
    int made = socket(AF_UNIX, SOCK_DGRAM | SOCK_CLOEXEC | SOCK_NONBLOCK, 0);
    mode_t before = umask(0177);
    bool is_bound = made >= 0 && bind(made, (const struct sockaddr *)&address, sizeof address) == 0;
    umask(before);
    if (!is_bound) {
        return because(why, "%s: %s", path, strerror(errno));
    }
    player->socket = made;
    return true;
}

/* What comes on again before the next line, since a person switched it off. The lock is held. */
static void print_again(char *text, size_t room, const struct player *player) {
    char outputs[OUTPUTS_ROOM];
    text[0] = '\0';
    if (player->has_again) {
        outputs_print(outputs, sizeof outputs, &player->again);
        snprintf(text, room, " again %s", outputs);
    }
}

/* How far the player is, with the lines that stand in OUT now. */
static void report(struct player *player, char *text, size_t room, const char *question) {
    char place[PLACE_ROOM];
    char outputs[OUTPUTS_ROOM];
    char again[OUTPUTS_ROOM + 8];
    char does[32];
    int64_t nm[3];
    player_doing(player, does, sizeof does);
    player_lock(player);
    bool took = source_take_all(&player->source);
    uint64_t lines = player->lines;
    uint64_t received = player->errand.is_there ? errand_line(player) : player->source.received;
    bool is_busy = player->manual.is_there || anew_is_wanted(player);
    received += is_busy && received == lines;
    player_place(player, nm);
    outputs_print(outputs, sizeof outputs, &player->outputs);
    print_again(again, sizeof again, player);
    player_unlock(player);
    if (took) {
        eventfd_write(player->wake, 1);
    }
    place_print(place, sizeof place, nm);
    int percent = atomic_load(&player->percent);
    int spindle = atomic_load(&player->spindle_percent);
    unsigned wants = atomic_load(&player->wants);
    snprintf(text, room, "%s carried %" PRIu64 " received %" PRIu64 " %s reference %s outputs %s%s percent %d"
             " spindle %d wants %u out %s", question, lines, received, does, place, outputs, again, percent, spindle,
             wants, player->out);
}

/* Sends the motors where somebody wants them. */
static void send_there(struct player *player, const struct wish *wish) {
    static struct cause why;
    player_lock(player);
    source_take_all(&player->source);
    bool is_taken = errand_take(player, wish, &why);
    player_unlock(player);
    if (!is_taken) {
        say("%s: it doesn't go: %s", player->source.path, why.text);
    }
    eventfd_write(player->wake, 1);
}

static bool is_question(const char *text, size_t size, const char *word) {
    struct scan scan = {text, text + size};
    if (!scan_word(&scan, word) || scan_is_over(&scan) || scan.end - scan.at > 20) {
        return false;
    }
    while (!scan_is_over(&scan) && *scan.at >= '0' && *scan.at <= '9') {
        scan.at++;
    }
    return scan_is_over(&scan);
}

/* Whether it is known that the lines lead elsewhere than where the motors are, and where. */
static bool lead_elsewhere(const struct player *player, int64_t nm[3]) {
    for (int axis = 0; axis < 3; axis++) {
        nm[axis] = player->path[axis] * player->step_nm[axis];
    }
    return player->has_path && memcmp(player->path, player->steps, sizeof player->path) != 0;
}

/* What the record on the disk counts, and where the lines lead by now: one that was taken since then leads on from
 * where the motors are. */
static int kept(struct player *player, char *text, size_t room, const char *question) {
    int64_t nm[3];
    char place[PLACE_ROOM];
    player_lock(player);
    const struct record *kept = &player->kept;
    int size = snprintf(text, room, "%s lines %" PRIu64 " bytes %" PRIu64 " age %u", question, kept->lines, kept->bytes,
                        kept->age_ms);
    if (lead_elsewhere(player, nm)) {
        place_print(place, sizeof place, nm);
        size += snprintf(text + size, room - (size_t)size, " path %s", place);
    }
    if (player->alarm == NO_ALARM && (player->is_sure || player->homed == ALL_AXES)) {
        size += snprintf(text + size, room - (size_t)size, " sure");
    }
    player_unlock(player);
    return size;
}

/* Does what a datagram asks for; others are left alone. */
static void heed(struct player *player, const char *text, size_t size, const struct sockaddr_un *from,
                 socklen_t named) {
    static char answer[2 * PATH_MAX];
    struct wish wish;
    size_t length = 0;
    if (is_question(text, size, "progress ")) {
        askers_note(from, named);
        atomic_store(&player->has_ended, false);
        atomic_store(&player->asked_at, schedule_now());
        report(player, answer, sizeof answer, text);
        length = strlen(answer);
    } else if (order_heed(player, text, size)) {
        return;
    } else if (is_question(text, size, "kept ")) {
        length = (size_t)kept(player, answer, sizeof answer, text);
    } else if (wish_read(text, size, &wish)) {
        send_there(player, &wish);
    } else if (manual_heed(player, text, size, answer, sizeof answer)) {
        length = strlen(answer);
    }
    if (length > 0) {
        sendto(player->socket, answer, length, MSG_DONTWAIT, (const struct sockaddr *)from, named);
    }
}

/* Takes a datagram, if there is one. */
static bool take_one(struct player *player) {
    char text[QUESTION_ROOM + 1];
    struct sockaddr_un from;
    socklen_t named = sizeof from;
    ssize_t size = recvfrom(player->socket, text, QUESTION_ROOM, MSG_TRUNC, (struct sockaddr *)&from, &named);
    if (size < 0) {
        return errno == EINTR;
    }
    if (size > QUESTION_ROOM) { /* its end is lost */
        return true;
    }
    while (size > 0 && (text[size - 1] == '\n' || text[size - 1] == ' ')) {
        size--;
    }
    text[size] = '\0';
    heed(player, text, (size_t)size, &from, named);
    return true;
}

void answers_catch_up(struct player *player) {
    static pthread_mutex_t one_at_a_time = PTHREAD_MUTEX_INITIALIZER;
    pthread_mutex_lock(&one_at_a_time);
    while (player->socket >= 0 && take_one(player)) {
    }
    pthread_mutex_unlock(&one_at_a_time);
}

void *answers_give(void *shared) {
    struct player *player = shared;
    struct pollfd on = {player->socket, POLLIN, 0};
    while (!atomic_load(&player->over)) {
        poll(&on, 1, LOOKS_MS);
        answers_catch_up(player);
    }
    return NULL;
}
