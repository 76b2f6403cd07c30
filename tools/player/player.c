#define _POSIX_C_SOURCE 200809L
#include "player.h"

#include <poll.h>
#include <stdio.h>
#include <string.h>
#include <sys/eventfd.h>

#include "schedule.h"

enum { KEEPS_MS = 20, NS_PER_MS = 1000000 };

void player_lock(struct player *player) {
    pthread_mutex_lock(&player->lock);
}

void player_unlock(struct player *player) {
    pthread_mutex_unlock(&player->lock);
}

void player_place(const struct player *player, int64_t nm[3]) {
    for (int axis = 0; axis < 3; axis++) {
        nm[axis] = player->steps[axis] * player->step_nm[axis];
    }
}

/* What the record says of how the player ended, or would say if it were gone now. The lock is held. */
static const char *stopped_by(const struct player *player) {
    bool is_moving = player->is_amid_move || player->is_unsure;
    if (player->is_over_sink && player->stopped[0] == '\0') {
        return "killed"; /* the sink can be asked */
    }
    return is_moving && player->alarm == NO_ALARM ? RECORD_MOVING : player->stopped;
}

void player_record(struct player *player, struct record *record) {
    memset(record, 0, sizeof *record);
    snprintf(record->out, sizeof record->out, "%.*s", LONGEST_PATH, player->out);
    player_lock(player);
    record->lines = player->lines;
    record->bytes = player->bytes;
    record->outputs = player->outputs;
    player_place(player, record->nm);
    memcpy(record->screws, player->screws, sizeof record->screws);
    for (int axis = 0; axis < 3; axis++) {
        record->homed[strlen(record->homed)] = player->homed >> axis & 1 ? "XYZ"[axis] : '\0';
    }
    record->is_off = player->is_off;
    record->has_path = player->has_path;
    for (int axis = 0; axis < 3; axis++) {
        record->path[axis] = player->path[axis] * player->step_nm[axis];
    }
    snprintf(record->stopped, sizeof record->stopped, "%s", stopped_by(player));
    record->moves = player->moves;
    unsigned worst_ms = atomic_load(&player->worst_ms);
    record->age_ms = worst_ms != 0 ? worst_ms : player->left.age_ms;
    player_unlock(player);
    record->mark = source_mark(&player->source, record->bytes);
}

void player_leave_path(struct player *player) {
    bool asks_for_tool = atomic_load(&player->tool) != NO_TOOL; /* its line leads on from there, also behind a jog */
    if (!player->has_path && (!player->is_off || asks_for_tool)) {
        memcpy(player->path, player->steps, sizeof player->path);
        player->has_path = true;
    }
}

void player_be_on_path(struct player *player) {
    player->is_off = false;
    player->has_path = false;
}

void player_count(struct player *player, uint64_t lines, uint64_t bytes) {
    if (player->lines != lines || player->bytes != bytes) {
        player_be_on_path(player);
    }
    player->lines = lines;
    player->bytes = bytes;
}

void player_doing(struct player *player, char *text, size_t room) {
    int tool = atomic_load(&player->tool);
    player_lock(player);
    bool is_alarm = player->alarm != NO_ALARM;
    bool is_broken = player->is_broken;
    bool moves = player->manual.is_there;
    bool is_unsure = player->is_unsure;
    player_unlock(player);
    const char *word = "works";
    if (is_alarm) {
        word = "alarm";
    } else if (moves) {
        word = "moves";
    } else if (is_broken) {
        word = "broken";
    } else if (is_unsure) {
        word = "unsure";
    } else if (atomic_load(&player->is_untold)) {
        word = "moved";
    } else if (atomic_load(&player->stands_held)) {
        word = "held";
    } else if (atomic_load(&player->waits_spindle)) {
        word = "waits spindle";
    }
    if (tool != NO_TOOL) {
        snprintf(text, room, "waits tool %d", tool);
    } else {
        snprintf(text, room, "%s", word);
    }
}

int64_t in_steps(int64_t nm, int64_t step_nm) {
    int64_t size = nm < 0 ? -nm : nm;
    int64_t steps = (2 * size + step_nm) / (2 * step_nm);
    return nm < 0 ? -steps : steps;
}

uint64_t player_step_us(const struct player *player, int axis, int64_t nm_per_min) {
    int64_t most = player->traverse_nm_per_min;
    uint64_t rate = (uint64_t)(nm_per_min < most ? nm_per_min : most);
    uint64_t us = ((uint64_t)player->step_nm[axis] * 60000000 + rate - 1) / rate;
    return us > player->least_us ? us : player->least_us;
}

void player_kept(struct player *player, const struct record *record, int error) {
    player_lock(player);
    if (error == 0) {
        player->kept = *record;
    }
    player_unlock(player);
}

/* Whether lines were carried out, or motors moved, since the record on the disk. */
static bool is_newer(const struct record *record, const struct record *kept) {
    return record->bytes != kept->bytes || memcmp(record->nm, kept->nm, sizeof record->nm) != 0
        || memcmp(record->screws, kept->screws, sizeof record->screws) != 0;
}

bool player_is_kept(struct player *player) {
    struct record now;
    player_record(player, &now);
    player_lock(player);
    bool is_kept = !is_newer(&now, &player->kept);
    player_unlock(player);
    return is_kept;
}

/* Writes what stands. */
static void keep(struct player *player) {
    struct record record;
    int64_t now = schedule_now();
    player_record(player, &record);
    bool was_older = is_newer(&record, &player->kept);
    int error = keeper_write(&player->keeper, &record);
    player_kept(player, &record, error);
    if (error != 0) {
        atomic_store(&player->record_why, error);
    }
    atomic_store(&player->record_error, error);
    int64_t age_ms = (schedule_now() - player->kept_at + NS_PER_MS - 1) / NS_PER_MS;
    player->kept_at = now;
    if (was_older && age_ms > atomic_load(&player->worst_ms)) {
        atomic_store(&player->worst_ms, age_ms < OLDEST_MS ? (unsigned)age_ms : OLDEST_MS);
    }
}

void *record_keep(void *shared) {
    struct player *player = shared;
    struct pollfd at_once = {player->keep, POLLIN, 0};
    eventfd_t events;
    while (!atomic_load(&player->over)) {
        keep(player);
        if (poll(&at_once, 1, KEEPS_MS) > 0) {
            eventfd_read(player->keep, &events);
        }
    }
    return NULL;
}
