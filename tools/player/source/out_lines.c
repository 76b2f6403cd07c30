#define _GNU_SOURCE
#include "out_lines.h"

#include <poll.h>
#include <stdatomic.h>
#include <string.h>
#include <sys/eventfd.h>

#include "engine.h"
#include "errand_moves.h"
#include "manual_moves.h"
#include "motors.h"
#include "off.h"
#include "out_end.h"
#include "waits.h"
#include "window.h"

#define STARVES_NS INT64_C(30000000) /* after so long at rest with nothing new, what is known is carried out */

static struct engine engine;
static struct window window;
static bool is_bad;       /* the line behind what is known isn't one .. */
static struct cause bad;  /* .. and why */
static int64_t newest_at; /* when the last line was read */
static uint64_t ended;    /* before this line all rests, as it was said or had to be that no more come for now */
static bool is_on_path;   /* behind the last line that was carried out the motors were to go on .. */
static bool is_dry;       /* .. and came to rest, as there were no more lines */

/* What is known is carried out to its end. */
static void end_here(void) {
    engine_end_here(&engine);
    ended = engine.end;
}

/* Takes the next line, with its newline, if one stands in OUT. */
static bool take_line(struct play *play, char *line, size_t *size) {
    player_lock(play->player);
    bool is_there = source_next(&play->player->source, line, size);
    while (!is_there && source_read(&play->player->source, HAND_BYTES)) {
        is_there = source_next(&play->player->source, line, size);
    }
    play->player->has_path &= !is_there; /* it leads on from where the motors are */
    player_unlock(play->player);
    if (is_there && atomic_load(&play->player->stays)) {
        atomic_store(&play->player->stays, false);
    }
    return is_there;
}

/* Waits some time for more of OUT; `has_ended` says whether it has ended. */
static enum end await_more(struct play *play, bool *has_ended) {
    struct player *shared = play->player;
    int file = shared->source.is_pipe ? shared->source.file : -1;
    struct pollfd on[2] = {{file, POLLIN, 0}, {shared->wake, POLLIN, 0}};
    poll(on, 2, shared->source.is_pipe ? SLICE_MS : shared->source.follows);
    if (on[1].revents & POLLIN) {
        eventfd_t events;
        eventfd_read(shared->wake, &events);
    }
    if (source_error() != 0) {
        return CONTINUES; /* that isn't OUT's end: it is looked for before each line */
    }
    if (has_errand(play)) {
        return do_errand(play);
    }
    if (manual_is_there(shared)) {
        return make_manual_move(play);
    }
    if (on[1].revents & POLLIN) {
        return CONTINUES;
    }
    if (is_left(play) && (!shared->source.is_pipe || (on[0].revents & (POLLHUP | POLLIN)) == POLLHUP)) {
        return end_of_session(play, has_ended);
    }
    if ((on[0].revents & (POLLHUP | POLLIN)) == POLLHUP) {
        poll(NULL, 0, SLICE_MS / 4); /* another session follows: the poll above doesn't wait */
    }
    play->left_at = 0;
    return CONTINUES;
}

/* Reads a line that was taken. Returns false, with the cause, for one that isn't a line, or whose time is too long for
 * a play that keeps times. */
static bool read_taken(const struct play *play, const char *text, size_t size, struct line *line, struct cause *why) {
    size_t length = size - (text[size - 1] == '\n');
    return line_read(text, length, play->least_us, line, why)
        && (!options_keep_times(play->options) || line_fits_clock(line, why));
}

/* Whether the newest line that is known asks for a tool: the motors may move meanwhile, and from then on their screws
 * lie otherwise, so that none behind it is taken before. */
static bool ends_at_tool(const struct engine *of) {
    return engine_has_moves(of) && asks_for_tool(of->play, &engine_newest(of)->line);
}

/* Takes a line that stands in OUT. */
static enum taken next(struct engine *of, struct ahead *newest) {
    struct play *play = of->play;
    if (ends_at_tool(of)) {
        end_here();
        return NONE_NOW;
    }
    if (!take_line(play, newest->text, &newest->size)) {
        bool is_end = !of->pace.is_plain && source_ends(&play->player->source) && !has_errand(play);
        return is_end ? NO_MORE_COME : NONE_NOW;
    }
    newest_at = schedule_now();
    play->left_at = 0;
    play->counts.dry += is_dry;
    is_on_path = is_on_path && !is_dry; /* counted once */
    is_dry = false;
    newest->move = (struct move){.is_done = true, .lines = of->place.lines + 1,
                                 .bytes = of->place.bytes + newest->size};
    is_bad = !read_taken(play, newest->text, newest->size, &newest->move.line, &bad);
    return is_bad ? NO_MORE_COME : TAKEN;
}

static void heed_known(struct engine *of, const struct line *line) {
    if (!of->pace.is_plain) {
        window_take(&window, line);
    }
}

/* How many lines are wanted in hand: those that a sink has come before those of the pacer. */
static unsigned lines_wanted(const struct play *play) {
    uint64_t wanted = window_lines(&window);
    uint64_t given = play->motors->place(play).lines;
    player_lock(play->player); /* the thread of a sink counts */
    uint64_t ahead = given - play->player->lines;
    player_unlock(play->player);
    wanted = (wanted < play->motors->room ? wanted : play->motors->room) + ahead;
    return (unsigned)(wanted < WINDOW_MOST ? wanted : WINDOW_MOST);
}

static void heed_taken(struct engine *of) {
    struct play *play = of->play;
    if (of->is_all) {
        ended = of->end;
    }
    if (!of->has_newest && play->player->source.taken == atomic_load(&play->player->last)) {
        end_here();
        is_dry = false;
    }
    if (!of->pace.is_plain) {
        atomic_store(&play->player->wants, lines_wanted(play));
    }
}

/* Whether lines are in hand that wait until somebody says that `ngc` knows where the motors are; says it once. */
static bool has_to_be_told(struct play *play) {
    static bool is_said;
    bool waits = atomic_load(&play->player->is_untold);
    if (waits && !is_said && engine_has_moves(&engine)) {
        say("%s: lines came, and the motors moved without lines before: they stand until `at X Y Z` says that ngc "
            "knows where", play->options->out);
    }
    is_said = waits && (is_said || engine_has_moves(&engine));
    return waits;
}

static uint64_t wanted(struct engine *of) {
    struct play *play = of->play;
    struct player *player = play->player;
    bool is_to_rest = is_rest_asked(play) || anew_is_wanted(player) || atomic_load(&player->is_held);
    if (of->pace.is_plain) {
        return UINT64_MAX; /* it stops between two lines */
    }
    if (is_to_rest || has_to_be_told(play)) {
        return 0;
    }
    return pace_wanted(&of->pace, (unsigned)atomic_load(&player->percent));
}

/* Waits for the tool that the newest line asks for: screws lie then as the moves meanwhile left them. */
static enum end get_tool(struct engine *of, const struct line *line) {
    struct player *player = of->play->player;
    enum end end = await_tool(of->play, line->outputs.slot);
    player_lock(player);
    memcpy(of->screws, player->screws, sizeof of->screws);
    player_unlock(player);
    return end;
}

/* Waits for what has to be before a line: that the motors stand, that a tool is in, and that what a person switched off
 * is on again. */
static enum end prepare(struct engine *of, const struct line *line, bool *is_new) {
    struct play *play = of->play;
    bool may_ask = line->kind == 'S' && !play->options->asks_no_tool;
    if (may_ask && !play->motors->await_rest(play)) {
        return STOPPED;
    }
    enum end end = asks_for_tool(play, line) ? get_tool(of, line) : CONTINUES;
    return end == CONTINUES ? off_is_over(play, line, is_new) : end;
}

static void heed_given(struct engine *of, const struct ahead *ahead) {
    if (!of->pace.is_plain) {
        is_on_path = ahead->move.line.kind == 'P' && of->first != ended;
        window_leave(&window, of->first);
    }
}

/* Waits a little: in a hold, or for more lines. */
static void doze(struct play *play, bool is_held) {
    int file = play->player->source.is_pipe && !is_held ? play->player->source.file : -1;
    struct pollfd on[2] = {{play->player->wake, POLLIN, 0}, {file, POLLIN, 0}};
    poll(on, 2, SLICE_MS / 2);
    if (on[0].revents & POLLIN) {
        eventfd_t events;
        eventfd_read(play->player->wake, &events);
    }
}

/* Nothing is known: waits for more of OUT; `is_over` says whether it has ended. */
static enum end await_out(struct play *play, bool *is_over) {
    if (is_bad) {
        *is_over = true;
        return stop_at_line(play, &bad);
    }
    if (heed_stops(play)) {
        return STOPPED;
    }
    enum end end = await_more(play, is_over);
    schedule_pause(&play->schedule); /* nothing was there */
    return end;
}

/* At rest with nothing to give out. */
static enum end await(struct engine *of, bool *is_over) {
    struct play *play = of->play;
    if (play->motors->are_moving()) {
        play->motors->doze();
        return CONTINUES;
    }
    bool is_held = wanted(of) == 0;
    atomic_store(&play->player->stands_held, is_held);
    is_dry = is_dry || (is_on_path && !is_held);
    if (!engine_has_moves(of)) {
        return await_out(play, is_over);
    }
    if (!is_held && schedule_now() - newest_at >= STARVES_NS) {
        end_here();
        return CONTINUES;
    }
    if (is_held && is_left_held(play)) {
        return STOPPED;
    }
    doze(play, is_held);
    schedule_pause(&play->schedule);
    return CONTINUES;
}

static const struct move_source out_lines = {.next = next, .heed_known = heed_known, .heed_taken = heed_taken,
                                             .wanted = wanted, .prepare = prepare, .heed_given = heed_given,
                                             .await = await};

void out_lines_begin(struct play *play) {
    is_bad = is_on_path = is_dry = false;
    ended = 0;
    engine_begin(&engine, &out_lines, play, NULL);
    if (!engine.pace.is_plain) {
        window_begin(&window, &play->machine.limits, play->machine.window_lines);
        atomic_store(&play->player->wants, window_lines(&window));
    }
}

enum end carry_out_lines(struct play *play) {
    enum end end = engine_run(&engine);
    return end == CONTINUES ? end_of_out(play) : end;
}
