#define _GNU_SOURCE
#include "out_end.h"

#include <inttypes.h>
#include <poll.h>
#include <stdatomic.h>

#include "answers.h"
#include "waits.h"

enum end end_of_session(struct play *play, bool *has_ended) {
    struct player *shared = play->player;
    bool is_on = outputs_are_on(&shared->outputs);
    answers_catch_up(shared);
    bool was_asked = atomic_load(&shared->asked_at) != 0;
    *has_ended = source_ends(&shared->source);
    if (*has_ended) {
        return CONTINUES;
    }
    if (!have_seconds_passed(play) && is_on) {
        poll(NULL, 0, SLICE_MS); /* the poll of a pipe that nobody writes doesn't wait */
        return CONTINUES;
    }
    *has_ended = true;
    if (atomic_load(&shared->has_ended) || (!was_asked && !is_on)) {
        return CONTINUES;
    }
    note_stop(play, "console");
    because(&play->why, "the console is gone without a word, after line %" PRIu64 ";", shared->lines);
    return STOPPED;
}

enum end stop_at_line(struct play *play, const struct cause *what) {
    if (source_error() != 0 && heed_stops(play)) {
        return STOPPED;
    }
    note_stop(play, "line");
    because(&play->why, ":%" PRIu64 ": %.*s; stopped,", play->player->lines + 1, CAUSE_ROOM - 64, what->text);
    return STOPPED;
}

enum end end_of_out(struct play *play) {
    char quoted[QUOTED];
    struct cause what;
    size_t size = 0;
    player_lock(play->player);
    const char *part = source_part(&play->player->source, &size);
    quote(quoted, sizeof quoted, part, size);
    player_unlock(play->player);
    if (size == 0) {
        return CONTINUES;
    }
    because(&what, "OUT ends in a part of a line: %s", quoted);
    return stop_at_line(play, &what);
}
