/* OUT, as a player reads it. */
#ifndef SOURCE_H
#define SOURCE_H

#include <stdbool.h>
#include <stddef.h>
#include <stdint.h>

#include "cause.h"
#include "line.h"
#include "record.h"

enum {
    HAND_BYTES = 64,    /* read at once: what is in hand is lost with the power */
    HAND_ROOM = 1 << 18 /* 8,192 lines of 32 bytes, and no line has more */
};

struct source {
    const char *path;
    int file;
    bool is_pipe;
    bool follows;      /* a file's end isn't the end of OUT */
    uint64_t limit;    /* a file isn't read beyond so many bytes; the greatest number for none */
    uint64_t received; /* whole lines that were read, from OUT's first on */
    uint64_t taken;    /* bytes of OUT, with those of the lines that were taken */
    size_t first;      /* what is in hand begins here .. */
    size_t end;        /* .. and ends here */
    char hand[2 * HAND_ROOM]; /* so that what is in hand is seldom moved to its beginning */
};

/* Opens a file, which may be followed, or a named pipe, which gets so many bytes. Returns false, with the cause. */
bool source_open(struct source *source, const char *path, int pipe_bytes, bool follows, struct cause *why);

/* Why OUT can't be read any more, as the number of an error; 0 while it can. What was read is whole lines as before. */
int source_error(void);

/* Whether OUT ends where no more stands in it: not where that can't be read. */
bool source_ends(const struct source *source);

/* Goes on, or back, to behind so many lines and bytes of a file; what is in hand is let go. */
void source_go_to(struct source *source, uint64_t lines, uint64_t bytes);

/* How many bytes a file has. */
uint64_t source_size(const struct source *source);

/* Reads so many bytes of a file from a byte on, fewer at its end; returns how many. */
size_t source_read_at(const struct source *source, char *to, size_t size, uint64_t from);

/* Goes to the first line of a file that isn't carried out. */
bool source_skip(struct source *source, const struct record *begun);

/* What tells a file apart by its first `bytes` bytes; not known of a pipe. */
struct file_mark source_mark(const struct source *source, uint64_t bytes);

/* Whether a file has so many bytes, and a line ends there. */
bool source_holds(const struct source *source, uint64_t bytes);

/* The next whole line with its newline, if one is in hand; the most that is taken of a line is LONGEST_LINE + 1. */
bool source_next(struct source *source, char line[LONGEST_LINE + 2], size_t *size);

/* Reads up to so many bytes, without waiting; whether there were any. */
bool source_read(struct source *source, size_t most);

/* How many bytes OUT has now, but for a part of a line in hand with which it ends. */
uint64_t source_end(const struct source *source);

/* Takes into hand what stands in OUT now, as far as there is room; whether there was anything. */
bool source_take_all(struct source *source);

/* What is in hand is a part of a line; of `size` bytes. */
const char *source_part(const struct source *source, size_t *size);

#endif
