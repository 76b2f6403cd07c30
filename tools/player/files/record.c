#include "record.h"

#include <inttypes.h>
#include <stdio.h>
#include <string.h>

#include "scan.h"

const char RECORD_MOVING[] = "moving";

bool record_takes(const char *out, struct cause *why) {
    size_t size = strlen(out);
    if (size > LONGEST_PATH) {
        return because(why, "%s: too long a path for a record: it has %zu bytes, and at most %d fit", out, size,
                       LONGEST_PATH);
    }
    if (strchr(out, '\n') != NULL) {
        return because(why, "%s: a path with a line's end in it can't stand in a record", out);
    }
    return true;
}

/* All that stands in it, with the line `path` or none; how many bytes that are. */
static int print_lines(const struct record *record, const char *path, char whole[RECORD_SIZE]) {
    char outputs[OUTPUTS_ROOM];
    char place[PLACE_ROOM];
    char mark[80] = "";
    char screws[32] = "";
    char age[32] = "";
    char homed[16] = "";
    char stopped[32] = "";
    outputs_print(outputs, sizeof outputs, &record->outputs);
    place_print(place, sizeof place, record->nm);
    if (record->mark.is_known) {
        snprintf(mark, sizeof mark, "file %" PRIu64 " %" PRIu64 " %08" PRIx32 "\n", record->mark.inode,
                 record->mark.born_ns, record->mark.digest);
    }
    screws_print(screws, sizeof screws, record->screws);
    if (record->age_ms != 0) {
        snprintf(age, sizeof age, "age %u\n", record->age_ms);
    }
    if (record->homed[0] != '\0') {
        snprintf(homed, sizeof homed, "homed %s\n", record->homed);
    }
    if (record->stopped[0] != '\0') {
        snprintf(stopped, sizeof stopped, "stopped %s\n", record->stopped);
    }
    return snprintf(whole, RECORD_SIZE, "out %s\nlines %" PRIu64 "\nbytes %" PRIu64 "\noutputs %s\nreference %s\n"
                    "%s%s%s%s%s%s%s", record->out, record->lines, record->bytes, outputs, place, mark, path, screws,
                    age, homed, record->is_off ? "off\n" : "", stopped);
}

void record_print(const struct record *record, char text[RECORD_SIZE]) {
    char whole[RECORD_SIZE];
    char place[PLACE_ROOM];
    char path[PLACE_ROOM + 8] = "";
    bool has_left = record->is_off || memcmp(record->path, record->nm, sizeof record->path) != 0;
    if (record->has_path && has_left && record->mark.is_known) {
        place_print(place, sizeof place, record->path);
        snprintf(path, sizeof path, "path %s\n", place);
    }
    int size = print_lines(record, path, whole);
    size = size < RECORD_SIZE ? size : print_lines(record, "", whole);
    memset(text, ' ', RECORD_SIZE);
    memcpy(text, whole, size < RECORD_SIZE ? (size_t)size : RECORD_SIZE - 1);
    text[RECORD_SIZE - 1] = '\n';
}

/* The next line, without its newline; false where there is none. */
static bool next_line(struct scan *text, struct scan *line) {
    const char *stop = memchr(text->at, '\n', (size_t)(text->end - text->at));
    if (stop == NULL) {
        return false;
    }
    line->at = text->at;
    line->end = stop;
    text->at = stop + 1;
    return true;
}

static bool read_out(struct scan line, struct record *record) {
    if (!scan_word(&line, "out ") || scan_is_over(&line)) {
        return false;
    }
    size_t size = (size_t)(line.end - line.at);
    if (memchr(line.at, '\0', size) != NULL) {
        return false;
    }
    memcpy(record->out, line.at, size);
    record->out[size] = '\0';
    return true;
}

static bool read_count(struct scan line, const char *word, uint64_t *count) {
    return scan_word(&line, word) && scan_whole(&line, 18, count) && scan_is_over(&line);
}

static bool read_outputs(struct scan line, struct record *record) {
    return scan_word(&line, "outputs ") && outputs_read(line.at, (size_t)(line.end - line.at), &record->outputs);
}

/* Whether it is a line of three words, without a look at what they say. */
static bool is_reference(struct scan *line) {
    int blanks = 0;
    bool is_word = false;
    if (!scan_word(line, "reference ")) {
        return false;
    }
    for (const char *at = line->at; at < line->end; at++) {
        if (*at == ' ' && !is_word) {
            return false;
        }
        is_word = *at != ' ';
        blanks += !is_word;
    }
    return is_word && blanks == 2;
}

/* The numbers of such a line. */
static bool read_reference(struct scan line, struct record *record, struct cause *why) {
    for (int axis = 0; axis < 3; axis++) {
        const char *stop = axis < 2 ? memchr(line.at, ' ', (size_t)(line.end - line.at)) : line.end;
        if (!nm_read(line.at, (size_t)(stop - line.at), &record->nm[axis])) {
            return because(why, "not a number of millimetres with at most six decimals: %.*s", (int)(stop - line.at),
                           line.at);
        }
        line.at = stop + (axis < 2);
    }
    return true;
}

static bool read_mark(struct scan line, struct file_mark *mark) {
    static const char hex[] = "0123456789abcdef";
    if (!scan_word(&line, "file ") || !scan_whole(&line, 19, &mark->inode) || !scan_word(&line, " ")
        || !scan_whole(&line, 19, &mark->born_ns) || !scan_word(&line, " ") || line.end - line.at != 8) {
        return false;
    }
    mark->digest = 0;
    for (; line.at < line.end; line.at++) {
        const char *digit = memchr(hex, *line.at, 16);
        if (digit == NULL) {
            return false;
        }
        mark->digest = mark->digest << 4 | (uint32_t)(digit - hex);
    }
    mark->is_known = true;
    return true;
}

static bool read_path(struct scan line, struct record *record) {
    record->has_path = scan_word(&line, "path ") && place_read(line.at, (size_t)(line.end - line.at), record->path);
    return record->has_path;
}

static bool read_age(struct scan line, unsigned *age_ms) {
    uint64_t found = 0;
    if (!scan_word(&line, "age ") || !scan_whole(&line, 4, &found) || !scan_is_over(&line) || found == 0) {
        return false;
    }
    *age_ms = (unsigned)found;
    return true;
}

static bool read_homed(struct scan line, struct record *record) {
    size_t count = 0;
    bool is_right = scan_word(&line, "homed ");
    for (const char *axis = "XYZ"; is_right && *axis != '\0'; axis++) {
        if (!scan_is_over(&line) && *line.at == *axis) {
            record->homed[count] = *axis;
            count++;
            line.at++;
        }
    }
    record->homed[count] = '\0';
    return is_right && count > 0 && scan_is_over(&line);
}

static bool read_off(struct scan line, struct record *record) {
    record->is_off = scan_word(&line, "off") && scan_is_over(&line);
    return record->is_off;
}

static bool read_stopped(struct scan line, struct record *record) {
    if (!scan_word(&line, "stopped ") || scan_is_over(&line)) {
        return false;
    }
    for (const char *at = line.at; at < line.end; at++) {
        if (*at < 'a' || *at > 'z') {
            return false;
        }
    }
    snprintf(record->stopped, sizeof record->stopped, "%.*s", (int)(line.end - line.at), line.at);
    return true;
}

/* What stands after the five lines; the number of the line that is none, or 0. */
static int read_rest(struct scan text, struct record *record) {
    struct scan line = text;
    int number = 6;
    bool is_line = next_line(&text, &line);
    if (is_line && read_mark(line, &record->mark)) {
        is_line = next_line(&text, &line);
        number++;
    }
    if (is_line && read_path(line, record)) {
        is_line = next_line(&text, &line);
        number++;
    }
    if (is_line && screws_read(line, record->screws)) {
        is_line = next_line(&text, &line);
        number++;
    }
    if (is_line && read_age(line, &record->age_ms)) {
        is_line = next_line(&text, &line);
        number++;
    }
    if (is_line && read_homed(line, record)) {
        is_line = next_line(&text, &line);
        number++;
    }
    if (is_line && read_off(line, record)) {
        is_line = next_line(&text, &line);
        number++;
    }
    if (is_line && read_stopped(line, record)) {
        is_line = next_line(&text, &line);
        number++;
    }
    while (is_line && line.at < line.end && *line.at == ' ') {
        line.at++;
    }
    return is_line && scan_is_over(&line) && scan_is_over(&text) ? 0 : number;
}

/* Which of the five lines isn't one, from 1; 0 if all are. `reference` is the last one. */
static int read_lines(struct scan *text, struct record *record, struct scan *reference) {
    struct scan line;
    if (!next_line(text, &line) || !read_out(line, record)) {
        return 1;
    }
    if (!next_line(text, &line) || !read_count(line, "lines ", &record->lines)) {
        return 2;
    }
    if (!next_line(text, &line) || !read_count(line, "bytes ", &record->bytes)) {
        return 3;
    }
    if (!next_line(text, &line) || !read_outputs(line, record)) {
        return 4;
    }
    if (!next_line(text, reference) || !is_reference(reference)) {
        return 5;
    }
    return 0;
}

static bool read_all(const char *bytes, size_t size, struct record *record, struct cause *why) {
    static const char *const forms[] = {"out PATH", "lines N", "bytes N", "outputs S ..", "reference X Y Z"};
    struct scan text = {bytes, bytes + size};
    struct scan reference = text;
    if (size > RECORD_SIZE) {
        return because(why, "it has more bytes, and a record has %d", RECORD_SIZE);
    }
    if (size < RECORD_SIZE) {
        return because(why, "it has %zu bytes, and a record has %d", size, RECORD_SIZE);
    }
    int wrong = read_lines(&text, record, &reference);
    if (wrong != 0) {
        return because(why, "line %d isn't '%s'", wrong, forms[wrong - 1]);
    }
    wrong = read_rest(text, record);
    if (wrong != 0) {
        return because(why, "line %d is no line of a record", wrong);
    }
    return read_reference(reference, record, why);
}

bool record_read(const char *text, size_t size, const char *path, struct record *record, struct cause *why) {
    struct cause inner;
    memset(record, 0, sizeof *record);
    if (read_all(text, size, record, &inner)) {
        return true;
    }
    return because(why, "%s: not a player's record: %.*s; remove it, and tell by --at where the machine stands",
                   path, RECORD_SIZE, inner.text);
}

bool mark_is_same(const struct file_mark *one, const struct file_mark *other) {
    return one->is_known && other->is_known && one->inode == other->inode && one->born_ns == other->born_ns
        && one->digest == other->digest;
}
