#define _GNU_SOURCE
#include "told.h"

#include <string.h>
#include <sys/eventfd.h>

#include "alarm.h"

/* Whether it may be told that the machine stands at these steps: where it does anyhow also with lines in hand, which
 * wait for that. The lock is held. */
static bool takes_place(const struct player *player, const int64_t steps[3]) {
    bool is_there = memcmp(player->steps, steps, sizeof player->steps) == 0;
    bool is_behind = player->source.received != player->lines && !player->is_broken && !is_there;
    bool moves = player->errand.is_there || player->manual.is_there;
    bool is_away = atomic_load(&player->is_untold) && atomic_load(&player->tool) != NO_TOOL; /* lines don't lead on */
    return player->alarm == NO_ALARM ? !is_behind && !moves && !is_away : alarm_takes_place(player, steps);
}

/* It stands at these steps, and `ngc` knows it; where an alarm is over by that, `ngc` has to be told yet. The lock is
 * held. */
static void take_place(struct player *player, const int64_t steps[3]) {
    for (int axis = 0; axis < 3; axis++) {
        player->screws[axis] = steps[axis] == player->steps[axis] ? player->screws[axis] : SCREW_UNKNOWN;
    }
    player_leave_path(player);
    player->is_sure = player->is_sure || memcmp(player->steps, steps, sizeof player->steps) != 0;
    player->is_unsure = false;
    memcpy(player->steps, steps, sizeof player->steps);
    atomic_store(&player->is_untold, player->alarm != NO_ALARM);
    if (player->alarm != NO_ALARM) {
        alarm_end(player);
    }
}

void told_place(struct player *player, const int64_t nm[3]) {
    int64_t steps[3];
    for (int axis = 0; axis < 3; axis++) {
        steps[axis] = in_steps(nm[axis], player->step_nm[axis]);
    }
    player_lock(player);
    bool took = source_take_all(&player->source);
    if (takes_place(player, steps)) {
        take_place(player, steps);
    }
    player_unlock(player);
    if (took) {
        eventfd_write(player->wake, 1);
    }
}
