#define _GNU_SOURCE
#include "way.h"

#include <inttypes.h>
#include <stdio.h>
#include <string.h>
#include <sys/stat.h>
#include <unistd.h>

enum { AXES = 3 };

void way_begin(struct way *way, const struct source *source, uint64_t lines, uint64_t bytes, uint64_t to,
               uint64_t least_us) {
    way->source = source;
    way->lines = lines;
    way->bytes = bytes;
    way->to = to;
    way->least_us = least_us;
    way->is_back = to < bytes;
    way->keeps_times = way->has_later = false;
    way->begin = 0;
    way->size = 0;
}

/* Reads so many bytes from a byte on into the piece. */
static void fill(struct way *way, uint64_t from, uint64_t size) {
    way->begin = from;
    way->size = source_read_at(way->source, way->piece, (size_t)size, from);
}

/* The text of the next line, of so many bytes with its newline; NULL where there is none. */
static const char *text_on(struct way *way, size_t *size) {
    uint64_t left = way->to - way->bytes;
    uint64_t most = left < LONGEST_LINE + 1 ? left : LONGEST_LINE + 1;
    if (way->bytes < way->begin || way->bytes + most > way->begin + way->size) {
        fill(way, way->bytes, left < WAY_ROOM ? left : WAY_ROOM);
    }
    if (way->bytes + most > way->begin + way->size) {
        return NULL;
    }
    const char *text = way->piece + (way->bytes - way->begin);
    const char *stop = memchr(text, '\n', most);
    *size = stop == NULL ? 0 : (size_t)(stop - text) + 1;
    return stop == NULL ? NULL : text;
}

/* The same of the line before, which begins no sooner than the way ends. */
static const char *text_back(struct way *way, size_t *size) {
    uint64_t left = way->bytes - way->to;
    uint64_t most = left < LONGEST_LINE + 1 ? left : LONGEST_LINE + 1;
    if (way->bytes > way->begin + way->size || way->bytes - most < way->begin) {
        uint64_t count = left < WAY_ROOM ? left : WAY_ROOM;
        fill(way, way->bytes - count, count);
    }
    if (way->bytes > way->begin + way->size) {
        return NULL;
    }
    const char *stop = way->piece + (way->bytes - way->begin) - 1;
    const char *first = stop + 1 - most;
    const char *before = memrchr(first, '\n', most - 1);
    if (before == NULL && most < left) {
        return NULL;
    }
    first = before == NULL ? first : before + 1;
    *size = (size_t)(stop - first) + 1;
    return *stop == '\n' ? first : NULL;
}

/* Whether a line's time is waited for on the way, and is one for which a clock has no room. */
static bool is_too_long(const struct way *way, const struct line *line, struct cause *why) {
    bool is_waited_for = way->keeps_times && (line->kind == 'P' || !way->is_back);
    return is_waited_for && !line_fits_clock(line, why);
}

/* Reads the next line, and passes it. */
static bool next_line(struct way *way, struct line *line, struct cause *why) {
    size_t size = 0;
    struct cause what = {"its room was given back to the disk, or it isn't a line of OUT"};
    const char *text = way->is_back ? text_back(way, &size) : text_on(way, &size);
    uint64_t number = way->lines + (way->is_back ? 0 : 1);
    if (text == NULL || !line_read(text, size - 1, way->least_us, line, &what) || is_too_long(way, line, &what)) {
        return because(why, "line %" PRIu64 ": %.*s", number, CAUSE_ROOM - 64, what.text);
    }
    way->lines = way->is_back ? way->lines - 1 : way->lines + 1;
    way->bytes = way->is_back ? way->bytes - size : way->bytes + size;
    return true;
}

static enum step next_on(struct way *way, struct move *move, struct cause *why) {
    if (way->bytes == way->to) {
        return NO_MORE;
    }
    if (!next_line(way, &move->line, why)) {
        return NO_LINE;
    }
    move->is_done = true;
    move->is_extra = false;
    move->lines = way->lines;
    move->bytes = way->bytes;
    return MOVE;
}

/* Reads the line before, as it is taken back. */
static bool read_back(struct way *way, struct move *move, struct cause *why) {
    if (!next_line(way, &move->line, why)) {
        return false;
    }
    for (int axis = 0; axis < AXES; axis++) {
        move->line.step[axis] = -move->line.step[axis];
    }
    move->is_done = move->line.kind == 'P';
    move->is_extra = false;
    move->lines = way->lines;
    move->bytes = way->bytes;
    return true;
}

/* Between two pulses lies the time that lay between them, so each waits for the line before it. */
static enum step next_back(struct way *way, struct move *move, struct cause *why) {
    bool is_there = false;
    do {
        is_there = way->has_later;
        *move = way->later;
        way->has_later = way->bytes > way->to;
        if (way->has_later && !read_back(way, &way->later, why)) {
            return NO_LINE;
        }
    } while (!is_there && way->has_later);
    if (way->has_later && way->later.is_done) {
        move->line.us = way->later.line.us;
    }
    return is_there ? MOVE : NO_MORE;
}

enum step way_next(struct way *way, struct move *move, struct cause *why) {
    return way->is_back ? next_back(way, move, why) : next_on(way, move, why);
}

/* The root of a whole number, rounded down. */
static uint64_t root_of(uint64_t square) {
    uint64_t root = 0;
    for (uint64_t bit = UINT64_C(1) << 31; bit != 0; bit >>= 1) {
        if ((root | bit) * (root | bit) <= square) {
            root |= bit;
        }
    }
    return root;
}

void way_add(struct way_sum *sum, const struct line *line, const int64_t step_nm[3]) {
    uint64_t square = 0;
    for (int axis = 0; axis < AXES && line->kind == 'P'; axis++) {
        int64_t nm = line->step[axis] * step_nm[axis];
        square += (uint64_t)(nm * nm);
        sum->steps[axis] += line->step[axis];
    }
    sum->length_nm += root_of(square);
    sum->us += line->kind == 'S' ? 0 : line->us;
    sum->switches += line->kind == 'S';
    int64_t low = sum->steps[2] * step_nm[2];
    sum->low_nm = low < sum->low_nm ? low : sum->low_nm;
}

bool way_look(struct way *way, const int64_t step_nm[3], struct way_sum *sum, struct cause *why) {
    struct move move;
    enum step step = MOVE;
    sum->low_nm = sum->steps[2] * step_nm[2];
    while ((step = way_next(way, &move, why)) == MOVE) {
        sum->lines++;
        if (move.is_done) {
            way_add(sum, &move.line, step_nm);
        }
    }
    return step == NO_MORE;
}

/* Millimetres with three decimals. */
static void print_mm(char *text, size_t room, int64_t nm) {
    uint64_t size = nm < 0 ? (uint64_t)-nm : (uint64_t)nm;
    uint64_t um = (2 * size + 1000) / 2000;
    snprintf(text, room, "%s%" PRIu64 ".%03" PRIu64, nm < 0 && um > 0 ? "-" : "", um / 1000, um % 1000);
}

static void print_time(char *text, size_t room, uint64_t us) {
    uint64_t ms = (us + 500) / 1000;
    uint64_t hours = ms / 3600000;
    uint64_t minutes = ms / 60000 % 60;
    char before[64] = "";
    if (hours > 0) {
        snprintf(before, sizeof before, "%" PRIu64 " h %" PRIu64 " min ", hours, minutes);
    } else if (minutes > 0) {
        snprintf(before, sizeof before, "%" PRIu64 " min ", minutes);
    }
    snprintf(text, room, "%s%" PRIu64 ".%03" PRIu64 " s", before, ms / 1000 % 60, ms % 1000);
}

void way_say(const struct way_sum *sum, const char *what) {
    char length[32];
    char low[32];
    char time[96];
    char switches[64] = "";
    print_mm(length, sizeof length, (int64_t)sum->length_nm);
    print_mm(low, sizeof low, sum->low_nm);
    print_time(time, sizeof time, sum->us);
    if (sum->switches > 0) {
        snprintf(switches, sizeof switches, "; %" PRIu64 " switches of the outputs on the way", sum->switches);
    }
    say("%s: %s mm in %s, lowest Z %s%s", what, length, time, low, switches);
}

bool way_find_line(const struct source *source, uint64_t lines, uint64_t bytes, uint64_t wanted, uint64_t *found,
                   struct cause *why) {
    static struct way way;
    struct stat what;
    size_t size = 0;
    uint64_t end = fstat(source->file, &what) == 0 ? (uint64_t)what.st_size : 0;
    way_begin(&way, source, lines, bytes, wanted < lines ? 0 : end, 0);
    while (way.lines != wanted && way.bytes != way.to) {
        if ((way.is_back ? text_back(&way, &size) : text_on(&way, &size)) == NULL) {
            break;
        }
        way.lines = way.is_back ? way.lines - 1 : way.lines + 1;
        way.bytes = way.is_back ? way.bytes - size : way.bytes + size;
    }
    *found = way.bytes;
    return way.lines == wanted
        || because(why, "OUT has %" PRIu64 " lines, and no line %" PRIu64, way.lines, wanted);
}

bool way_changes_tool(const struct source *source, uint64_t lines, uint64_t begin, uint64_t end, unsigned slot,
                      struct tool_change *change) {
    static struct way way;
    struct line line;
    struct cause why;
    size_t size = 0;
    way_begin(&way, source, lines, begin, end, 0);
    const char *text = begin < end ? text_on(&way, &size) : NULL;
    while (text != NULL) {
        way.lines++;
        way.bytes += size;
        if (text[0] == 'S' && line_read(text, size - 1, 0, &line, &why) && line.outputs.slot != slot) {
            *change = (struct tool_change){way.lines, line.outputs.slot};
            return true;
        }
        text = way.bytes < end ? text_on(&way, &size) : NULL;
    }
    return false;
}

uint64_t way_count_lines(const struct source *source, uint64_t begin, uint64_t end) {
    char piece[4096];
    uint64_t count = 0;
    while (begin < end) {
        size_t most = end - begin < sizeof piece ? (size_t)(end - begin) : sizeof piece;
        size_t size = source_read_at(source, piece, most, begin);
        for (size_t at = 0; at < size; at++) {
            count += piece[at] == '\n';
        }
        begin += most;
    }
    return count;
}

void way_outputs(const struct source *source, uint64_t bytes, struct outputs *outputs) {
    static struct way way;
    struct line line;
    size_t size = 0;
    const char *text = NULL;
    struct cause why;
    way_begin(&way, source, 0, bytes, 0, 0);
    do {
        text = way.bytes > 0 ? text_back(&way, &size) : NULL;
        way.bytes -= text != NULL ? size : 0;
    } while (text != NULL && text[0] != 'S');
    if (text != NULL && line_read(text, size - 1, 0, &line, &why)) {
        *outputs = line.outputs;
    }
}
