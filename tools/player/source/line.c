#include "line.h"

#include <inttypes.h>
#include <stdio.h>
#include <string.h>

#include "ng_lines.h"
#include "schedule.h"

enum { TIME_DIGITS = 20, SLOT_DIGITS = 3 };

#define ZEROS "; zeros stand where the disk lost what was written, or its room was given back: recover in ngc-operate" \
              " says what it was"

/* The proved reader takes a speed below 0 too, which no spindle has. */
static bool is_line(const char *text, size_t size, struct ng_line *read) {
    return ng_line_read((const uint8_t *)text, size, read) && read->speed >= 0;
}

static struct outputs outputs_of(const struct ng_line *read) {
    return (struct outputs){read->spindle, (uint64_t)read->speed, read->mist, read->flood, read->selected, read->slot};
}

/* Where the whole number of at most so many digits begins that stands behind a blank at the end of a text; 0 if none
 * does. */
static size_t last_number(const char *text, size_t end, size_t most_digits) {
    size_t at = end;
    while (at > 0 && text[at - 1] >= '0' && text[at - 1] <= '9') {
        at--;
    }
    bool has_digits = at < end && end - at <= most_digits && (end - at == 1 || text[at] != '0');
    return has_digits && at > 0 && text[at - 1] == ' ' ? at : 0;
}

/* Whether a text would be a line with this in the place of what stands from `at` on. */
static bool is_line_with(const char *text, size_t at, const char *end) {
    char tried[LONGEST_LINE];
    struct ng_line read;
    if (at == 0 || at + strlen(end) > sizeof tried) {
        return false;
    }
    memcpy(tried, text, at);
    memcpy(tried + at, end, strlen(end));
    return is_line(tried, at + strlen(end), &read);
}

/* Says why a text is no line: by its last numbers, where only these are beyond their ranges. */
static bool refuse(const char *text, size_t size, struct cause *why) {
    char quoted[QUOTED];
    size_t time = last_number(text, size, TIME_DIGITS);
    size_t slot = last_number(text, size, SLOT_DIGITS);
    size_t selected = slot > 0 ? last_number(text, slot - 1, SLOT_DIGITS) : 0;
    if (size > 0 && text[0] != 'S' && is_line_with(text, time, "0")) {
        return because(why, "a time of %.*s microseconds", (int)(size - time), text + time);
    }
    if (size > 0 && text[0] == 'S' && is_line_with(text, selected, "0 0")) {
        return because(why, "a slot above %d: %.*s", SLOTS, (int)size, text);
    }
    quote(quoted, sizeof quoted, text, size);
    return because(why, "not a line of OUT: %s%s", quoted, memchr(text, '\0', size) != NULL ? ZEROS : "");
}

static bool are_slots(const struct outputs *outputs) {
    return outputs->selected <= SLOTS && outputs->slot <= SLOTS;
}

bool line_read(const char *text, size_t size, uint64_t least_us, struct line *line, struct cause *why) {
    struct ng_line read;
    memset(line, 0, sizeof *line);
    if (!is_line(text, size, &read)) {
        return refuse(text, size, why);
    }
    line->kind = (char)read.letter;
    line->us = read.us;
    memcpy(line->step, read.step, sizeof line->step);
    line->outputs = outputs_of(&read);
    if (line->kind == 'P' && line->us < least_us) {
        return because(why, "a period of %" PRIu64 " us, and period_us of the settings is %" PRIu64, line->us,
                       least_us);
    }
    return are_slots(&line->outputs) || because(why, "a slot above %d: %.*s", SLOTS, (int)size, text);
}

bool line_fits_clock(const struct line *line, struct cause *why) {
    const uint64_t most_us = SCHEDULE_MOST_NS / 1000;
    return line->us <= most_us
        || because(why, "a time of %" PRIu64 " microseconds, and the player's clock has room for 73 years, %" PRIu64,
                   line->us, most_us);
}

bool outputs_read(const char *text, size_t size, struct outputs *outputs) {
    struct ng_line read;
    if (!is_line(text, size, &read) || read.letter != 'S') {
        return false;
    }
    *outputs = outputs_of(&read);
    return are_slots(outputs);
}

size_t outputs_print(char *text, size_t room, const struct outputs *outputs) {
    return (size_t)snprintf(text, room, "S %u %" PRIu64 ".%06" PRIu64 " %u %u %u %u", outputs->spindle,
                            outputs->speed / 1000000, outputs->speed % 1000000, outputs->mist, outputs->flood,
                            outputs->selected, outputs->slot);
}

bool outputs_are_on(const struct outputs *outputs) {
    return outputs->spindle != 0 || outputs->mist != 0 || outputs->flood != 0;
}

void outputs_stop(struct outputs *outputs) {
    outputs->spindle = 0;
    outputs->mist = 0;
    outputs->flood = 0;
}
