/* From what a player begins: its files, and what its record says. */
#define _GNU_SOURCE
#include "beginning.h"

#include <errno.h>
#include <inttypes.h>
#include <stdlib.h>
#include <string.h>

#include "answers.h"
#include "pins.h"
#include "schedule.h"
#include "times.h"

/* Whether the lines of the record are taken as carried out, by what it says of OUT; false, with the cause, where that
 * can't be told. `goes_on` is set where they are. */
static bool where_to_begin(const struct player *player, const struct options *options, const struct record *found,
                           bool *goes_on, struct cause *why) {
    const char *out = options->out;
    *goes_on = false;
    if (options->begins_anew || player->source.is_pipe || found->bytes == 0) {
        return true;
    }
    bool holds = source_holds(&player->source, found->bytes);
    struct file_mark there = source_mark(&player->source, found->bytes);
    bool is_same = holds && mark_is_same(&there, &found->mark);
    if (source_error() != 0) {
        return because(why, "%s: %s", out, strerror(source_error()));
    }
    if (strcmp(found->out, player->out) != 0) {
        *goes_on = is_same && there.born_ns != 0;
        if (*goes_on) {
            say("%s: it was %s: goes on after line %" PRIu64, out, found->out, found->lines);
        }
        return true;
    }
    if (found->bytes > source_size(&player->source)) {
        return because(why, "%s: it has %" PRIu64 " bytes, and by the record %" PRIu64 " are carried out: its end is"
                       " lost, or it is another file. Emptied (: > OUT) it begins anew with --anew, and recover leads"
                       " back by legs", out, source_size(&player->source), found->bytes);
    }
    if (!holds || (found->mark.is_known && there.digest != found->mark.digest)) {
        return because(why, "%s: not the file whose first %" PRIu64 " lines are carried out; --anew begins with its"
                       " first line", out, found->lines);
    }
    *goes_on = !found->mark.is_known || is_same || options->is_restored;
    if (!found->mark.is_known) {
        say("%s: goes on after line %" PRIu64 "; an older record doesn't say whether it is the same file", out,
            found->lines);
    }
    return *goes_on
        || because(why, "%s: another file than the one whose first %" PRIu64 " lines are carried out, though it begins"
                   " with the same lines; --anew begins with its first line, --restored goes on after line %" PRIu64
                   ", where it is a copy", out, found->lines, found->lines);
}

/* Where the lines lead that are carried out, by the record: where its player left the motors, unless it says another
 * place, or they had left the path to where nobody knows. */
static void begin_path(struct player *player, const struct record *record, bool is_known) {
    const int64_t *nm = record->has_path ? record->path : record->nm;
    player->has_path = is_known && (record->has_path || !record->is_off);
    for (int axis = 0; axis < 3; axis++) {
        player->path[axis] = in_steps(nm[axis], player->step_nm[axis]);
    }
}

/* What was carried out before, and where the machine stands. The outputs begin as off. */
static bool begin_record(struct player *player, const struct options *options, struct cause *why) {
    static struct record record;
    bool goes_on = false;
    if (!record_takes(player->out, why) || !keeper_hold(&player->keeper, options->position, why)) {
        return false;
    }
    if (player->keeper.file >= 0
        && (!keeper_read(&player->keeper, &record, why) || !where_to_begin(player, options, &record, &goes_on, why))) {
        return false;
    }
    bool is_known = player->keeper.file >= 0 && (goes_on || record.bytes == 0);
    player->left = record;
    player->has_left = is_known;
    record.lines = goes_on ? record.lines : 0;
    record.bytes = goes_on ? record.bytes : 0;
    if (!source_skip(&player->source, &record)) {
        return because(why, "%s: %s", options->out, strerror(errno));
    }
    player->lines = record.lines;
    player->bytes = record.bytes;
    player->is_off = goes_on && record.is_off;
    player->is_sure = options->has_place;
    player->is_unsure = strcmp(record.stopped, RECORD_MOVING) == 0 && !options->has_place;
    atomic_store(&player->is_untold, (record.is_off || player->is_unsure) && !options->has_place);
    player->told_at[0] = INT64_MIN; /* which is no place */
    player->outputs = record.outputs;
    outputs_stop(&player->outputs);
    bool is_of_out = is_known && strcmp(record.out, player->out) == 0;
    begin_path(player, &record, goes_on || (is_of_out && !options->begins_anew && !player->source.is_pipe));
    for (int axis = 0; axis < 3; axis++) {
        bool has_screw = player->backlash.steps[axis] != 0 && !options->has_place;
        int64_t nm = options->has_place ? options->place_nm[axis] : record.nm[axis];
        player->steps[axis] = in_steps(nm, player->step_nm[axis]);
        player->screws[axis] = has_screw ? record.screws[axis] : SCREW_UNKNOWN;
    }
    bool is_there = player->has_path && memcmp(player->path, player->steps, sizeof player->path) == 0;
    player->is_off = player->is_off && !is_there; /* no pulse came that led away */
    return true;
}

/* Whether somebody can say that `ngc` knows where the machine is, if the last player moved it without lines. */
static bool can_be_told(const struct player *player, const struct options *options, struct cause *why) {
    bool has_to_be = atomic_load(&player->is_untold) && !options->goes;
    bool can_be = options->socket != NULL && (options->machine != NULL || !player->left.is_off);
    return !has_to_be || can_be
        || because(why, "%s: the motors were moved without lines, and ngc may not know where they are: --at X Y Z tells"
                   " where the machine stands", options->position);
}

/* What a machine's file says, and the settings. */
static bool read_machine(struct player *player, const struct options *options, const struct settings *settings,
                         struct machine *machine, struct cause *why) {
    memcpy(player->step_nm, settings->step_nm, sizeof player->step_nm);
    memcpy(player->low_nm, settings->low_nm, sizeof player->low_nm);
    memcpy(player->high_nm, settings->high_nm, sizeof player->high_nm);
    player->least_us = (uint64_t)settings->period_us;
    player->traverse_nm_per_min = settings->traverse_nm_per_min;
    player->machine = options->machine != NULL ? machine : NULL;
    if (options->machine != NULL && (!machine_read(options->machine, settings->step_nm, machine, why)
                                     || !home_check(&machine->home, settings, options->machine, why))) {
        return false;
    }
    for (int axis = 0; axis < 3; axis++) {
        player->backlash.steps[axis] = options->machine != NULL ? (int)machine->backlash[axis] : 0;
        player->backlash.least_us[axis] = player_step_us(player, axis, INT64_MAX);
    }
    return true;
}

/* Of a file nothing is carried out before a console says so: neither lines that the last session left, nor those that
 * a console puts back. */
static void stay(struct player *player) {
    if (player->source.is_pipe) {
        return;
    }
    player->source.limit = player->bytes;
    if (source_size(&player->source) > player->bytes) {
        say("%s: lines that no motor carried out stand behind line %" PRIu64 ": nothing moves before a console says so;"
            " recover in ngc-operate goes on or back", player->source.path, player->lines);
    }
}

bool player_begin(struct player *player, const struct options *options, struct settings *settings,
                  struct machine *machine, struct cause *why) {
    const char *const others[] = {options->out, options->settings, options->position, NULL};
    if (!settings_read(options->settings, settings, why)
        || !read_machine(player, options, settings, machine, why)
        || !source_open(&player->source, options->out, options->pipe_bytes, options->follows, why)) {
        return false;
    }
    if (realpath(options->out, player->out) == NULL) {
        return because(why, "%s: %s", options->out, strerror(errno));
    }
    if (!begin_record(player, options, why) || !alarm_take_over(player, options, why)
        || !can_be_told(player, options, why)
        || !pins_begin(options->pins, others, why)
        || (options->socket != NULL && !answers_open(player, options->socket, why))
        || (options->times != NULL && !times_begin(options->times, why))) {
        return false;
    }
    if (options->machine == NULL && !options->is_untimed) {
        say("%s: no --machine: no ramps, and no motor follows full rates from rest", options->out);
    }
    if (options->follows && options->socket != NULL) {
        stay(player);
    }
    return true;
}

bool player_keep_first(struct player *player, struct cause *why) {
    static struct record first;
    player->kept_at = schedule_now();
    player_record(player, &first);
    player_kept(player, &first, 0);
    return keeper_begin(&player->keeper, &first, why);
}
