#include "cause.h"

#include <stdarg.h>
#include <stdio.h>
#include <string.h>

#include "utf8.h"

bool because(struct cause *why, const char *format, ...) {
    va_list words;
    va_start(words, format);
    vsnprintf(why->text, sizeof why->text, format, words);
    va_end(words);
    return false;
}

/* Whether a terminal shows a character of so many bytes, and doesn't obey it. */
static bool is_shown(const char *text, size_t size) {
    unsigned char first = (unsigned char)text[0];
    if (size == 1) {
        return first >= ' ' && first <= '~';
    }
    unsigned char second = (unsigned char)text[1];
    bool is_control = first == 0xc2 && second < 0xa0;
    bool turns_writing = (first == 0xe2 && (second == 0x80 || second == 0x81)) || (first == 0xd8 && second == 0x9c);
    bool is_mark = size == 3 && memcmp(text, "\xef\xbb\xbf", 3) == 0; /* of the order of bytes */
    return size > 1 && !is_control && !turns_writing && !is_mark;
}

/* Writes the character that begins at `text`; returns how many bytes were written, and moves `at` behind it. */
static size_t show(char *to, size_t room, const char *text, size_t size, size_t *at) {
    size_t wide = utf8_size(text + *at, size - *at);
    if (text[*at] == '\t') {
        *at += 1;
        return (size_t)snprintf(to, room, " ");
    }
    if (wide > 0 && is_shown(text + *at, wide)) {
        memcpy(to, text + *at, wide);
        *at += wide;
        return wide;
    }
    unsigned char byte = (unsigned char)text[*at];
    *at += 1;
    return byte == '\r' ? (size_t)snprintf(to, room, "\\r") : (size_t)snprintf(to, room, "\\x%02x", byte);
}

/* The text as it may be shown, as far as there is room. */
static size_t show_all(char *to, size_t room, const char *text, size_t size) {
    size_t used = 0;
    size_t at = 0;
    while (at < size && used + 5 < room) {
        used += show(to + used, room - used, text, size, &at);
    }
    to[used] = '\0';
    return used;
}

void show_text(char *shown, size_t room, const char *text) {
    show_all(shown, room, text, strlen(text));
}

void say(const char *format, ...) {
    struct cause text;
    char shown[CAUSE_ROOM];
    va_list words;
    va_start(words, format);
    vsnprintf(text.text, sizeof text.text, format, words);
    va_end(words);
    show_text(shown, sizeof shown, text.text);
    fprintf(stderr, "%s\n", shown);
}

void quote(char *quoted, size_t room, const char *text, size_t size) {
    size_t shown = size < 60 ? size : 60;
    quoted[0] = '\'';
    size_t used = 1 + show_all(quoted + 1, room - 6, text, shown);
    snprintf(quoted + used, room - used, "%s'", size > shown ? "..." : "");
}
