/* A way along lines of OUT, a file, on or back. Back is line by line what on was, in the other order and with steps of
 * the other sign; nothing waits and nothing is switched on the way back. */
#ifndef WAY_H
#define WAY_H

#include "line.h"
#include "source.h"

enum { WAY_ROOM = 1 << 16 };

/* A line that was carried out, or taken back: then the motors are where so many lines and bytes of OUT lead. Of a wait
 * or a switch that is taken back nothing is done. */
struct move {
    bool is_done;
    struct line line;
    uint64_t lines;
    uint64_t bytes;
    bool is_extra; /* it takes up backlash: a pulse that moves no table, with the counts of before */
};

/* What is left of a way: from behind so many lines and bytes of OUT to behind its first `to` bytes. */
struct way {
    const struct source *source;
    uint64_t lines;
    uint64_t bytes;
    uint64_t to;
    uint64_t least_us;
    bool keeps_times;  /* a line is refused for whose time a player's clock has no room */
    bool is_back;
    bool has_later;    /* back: a pulse that waits for the time between it and the one before it */
    struct move later;
    uint64_t begin;    /* of what is read .. */
    size_t size;       /* .. so many bytes */
    char piece[WAY_ROOM];
};

/* What a way comes to, from a point on. */
struct way_sum {
    uint64_t lines;
    uint64_t switches;
    uint64_t length_nm;
    uint64_t us;
    int64_t low_nm;
    int64_t steps[3]; /* first the point at which it begins, then that of its end */
};

/* A line of OUT at which a slot is to be in the spindle that wasn't before. */
struct tool_change {
    uint64_t line;
    unsigned slot;
};

enum step { MOVE, NO_MORE, NO_LINE };

void way_begin(struct way *way, const struct source *source, uint64_t lines, uint64_t bytes, uint64_t to,
               uint64_t least_us);

/* The next move; NO_LINE, with the cause, at what isn't a line of OUT, or is one that is refused. */
enum step way_next(struct way *way, struct move *move, struct cause *why);

/* Sums all of a way up. Returns false, with the cause. */
bool way_look(struct way *way, const int64_t step_nm[3], struct way_sum *sum, struct cause *why);

/* Adds a move of its own to a sum. */
void way_add(struct way_sum *sum, const struct line *line, const int64_t step_nm[3]);

/* Says what a way comes to. */
void way_say(const struct way_sum *sum, const char *what);

/* The bytes of the first `wanted` lines, by those of the first `lines`. Returns false, with the cause. */
bool way_find_line(const struct source *source, uint64_t lines, uint64_t bytes, uint64_t wanted, uint64_t *found,
                   struct cause *why);

/* Whether a line between two bytes of OUT asks for another slot in the spindle: the number of the first one, and that
 * slot. `lines` lines end at `begin`, and `slot` is in the spindle there. */
bool way_changes_tool(const struct source *source, uint64_t lines, uint64_t begin, uint64_t end, unsigned slot,
                      struct tool_change *change);

/* How many lines end between two bytes of OUT. */
uint64_t way_count_lines(const struct source *source, uint64_t begin, uint64_t end);

/* The outputs after the first `bytes` of OUT, by its last switch there; left as they are where none can be read. */
void way_outputs(const struct source *source, uint64_t bytes, struct outputs *outputs);

#endif
