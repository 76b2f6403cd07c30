#include "manual_words.h"

#include <string.h>

#include "record.h"
#include "scan.h"

enum { LONGEST_NUMBER = 18 };

#define MOST_NM_PER_MIN INT64_C(100000000000)

const char *const manual_verbs[] = {"home", "jog", "seek"};

/* Passes a word that ends at a blank. */
static struct scan next_word(struct scan *scan) {
    struct scan word = *scan;
    while (!scan_is_over(scan) && *scan->at != ' ') {
        scan->at++;
    }
    word.end = scan->at;
    return word;
}

/* Reads a length above 0, in millimetres. */
static bool read_length(struct scan *scan, int64_t *nm) {
    struct scan word = next_word(scan);
    return nm_read(word.at, (size_t)(word.end - word.at), nm) && *nm > 0;
}

/* Reads an axis; -1 for none. */
static int read_axis(struct scan *scan) {
    static const char *const names[3] = {"X", "Y", "Z"};
    int axis = 2;
    while (axis >= 0 && !scan_word(scan, names[axis])) {
        axis--;
    }
    return axis;
}

/* Reads " XZ", or nothing. */
static bool read_axes(struct scan *scan, struct manual_wish *wish) {
    if (scan_is_over(scan)) {
        return true;
    }
    bool is_right = scan_word(scan, " ") && !scan_is_over(scan);
    while (is_right && !scan_is_over(scan)) {
        int axis = read_axis(scan);
        is_right = axis >= 0 && (wish->axes >> axis & 1) == 0;
        wish->axes |= axis >= 0 ? 1U << axis : 0;
    }
    return is_right;
}

/* Reads " X+ RATE". */
static bool read_way(struct scan *scan, struct manual_wish *wish) {
    bool has_axis = scan_word(scan, " ") && (wish->axis = read_axis(scan)) >= 0;
    bool is_up = has_axis && scan_word(scan, "+");
    wish->sign = is_up ? 1 : -1;
    return has_axis && (is_up || scan_word(scan, "-")) && scan_word(scan, " ") && read_length(scan, &wish->nm_per_min)
        && wish->nm_per_min <= MOST_NM_PER_MIN;
}

static bool read_rest(struct scan *scan, struct manual_wish *wish) {
    if (wish->kind == HOMES) {
        return read_axes(scan, wish);
    }
    if (!read_way(scan, wish)) {
        return false;
    }
    wish->is_kept_up = wish->kind == JOGS && scan_is_over(scan);
    return wish->is_kept_up
        || (scan_word(scan, wish->kind == JOGS ? " for " : " within ") && read_length(scan, &wish->length_nm)
            && scan_is_over(scan));
}

enum reading manual_read(const char *text, size_t size, struct manual_wish *wish) {
    struct scan scan = {text, text + size};
    memset(wish, 0, sizeof *wish);
    int kind = SEEKS;
    while (kind >= HOMES && !scan_word(&scan, manual_verbs[kind])) {
        kind--;
    }
    if (kind < HOMES || !scan_word(&scan, " ") || !scan_whole(&scan, LONGEST_NUMBER, &wish->number)
        || wish->number == 0) {
        return OTHER_WORDS;
    }
    wish->kind = (enum manual_kind)kind;
    return read_rest(&scan, wish) ? WISH_WORDS : WRONG_WORDS;
}
