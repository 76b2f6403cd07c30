#define _GNU_SOURCE
#include "orders.h"

#include <string.h>
#include <sys/eventfd.h>

#include "machine.h"
#include "off.h"
#include "scan.h"
#include "spindle.h"
#include "told.h"

/* What stands in OUT now is all that comes for now. */
static void note_last(struct player *player) {
    player_lock(player);
    bool took = source_take_all(&player->source);
    atomic_store(&player->last, source_end(&player->source));
    player_unlock(player);
    if (took) {
        eventfd_write(player->wake, 1);
    }
}

/* Takes how many bytes of OUT are on the disk. */
static void take_synced(struct player *player, uint64_t bytes) {
    player_lock(player);
    bool is_heeded = player->source.follows && !player->errand.is_there && player->alarm == NO_ALARM
        && !player->is_broken && !anew_is_wanted(player);
    if (is_heeded) {
        player->source.limit = bytes;
    }
    bool took = is_heeded && source_take_all(&player->source);
    player_unlock(player);
    if (took) {
        eventfd_write(player->wake, 1);
    }
}

static bool is_word(const char *text, size_t size, const char *word) {
    return size == strlen(word) && memcmp(text, word, size) == 0;
}

/* Reads "percent N", or what else the words before it are, 1 to 999. */
static bool read_percent(const char *text, size_t size, const char *words, int *percent) {
    struct scan scan = {text, text + size};
    uint64_t number = 0;
    if (!scan_word(&scan, words) || !scan_whole(&scan, 3, &number) || !scan_is_over(&scan)) {
        return false;
    }
    *percent = (int)number;
    return number >= 1;
}

/* How much `percent` may be; 0 where there are no ramps. */
static int most_percent(const struct player *player) {
    return player->machine != NULL ? (int)player->machine->limits.most_percent : 0;
}

/* Reads "synced BYTES". */
static bool read_synced(const char *text, size_t size, uint64_t *bytes) {
    struct scan scan = {text, text + size};
    return scan_word(&scan, "synced ") && scan_whole(&scan, 18, bytes) && scan_is_over(&scan);
}

/* Goes on after a hold, unless the door is open. */
static void release(struct player *player) {
    const struct machine *machine = player->machine;
    if (machine == NULL || !input_is_on(atomic_load(&player->on), machine->inputs.door)) {
        atomic_store(&player->is_held, false);
    }
}

/* Overrides the spindle's speed, if it may be overridden so. */
static void override_spindle(struct player *player, int percent) {
    if (percent >= LEAST_SPINDLE_PERCENT && percent <= spindle_most_percent(player->machine)) {
        atomic_store(&player->spindle_percent, percent);
        eventfd_write(player->wake, 1);
    }
}

bool order_heed(struct player *player, const char *text, size_t size) {
    int64_t nm[3];
    int percent = 0;
    uint64_t bytes = 0;
    if (is_word(text, size, "go")) {
        manual_take_tool(player);
    } else if (is_word(text, size, "hold")) {
        atomic_store(&player->is_held, true);
    } else if (is_word(text, size, "release")) {
        release(player);
    } else if (read_percent(text, size, "percent ", &percent) && percent <= most_percent(player)) {
        atomic_store(&player->percent, percent);
    } else if (read_percent(text, size, "spindle percent ", &percent)) {
        override_spindle(player, percent);
    } else if (is_word(text, size, "last")) {
        note_last(player);
    } else if (read_synced(text, size, &bytes)) {
        take_synced(player, bytes);
    } else if (is_word(text, size, "off")) {
        off_take(player);
    } else if (is_word(text, size, "anew")) {
        anew_take(player);
    } else if (is_word(text, size, "end")) {
        note_last(player);
        atomic_store(&player->stays, false);
        atomic_store(&player->has_ended, true);
    } else if (size > 3 && memcmp(text, "at ", 3) == 0 && place_read(text + 3, size - 3, nm)) {
        told_place(player, nm);
    } else {
        return false;
    }
    return true;
}
