/* What people are told. */
#ifndef CAUSE_H
#define CAUSE_H

#include <stdbool.h>
#include <stddef.h>

enum { CAUSE_ROOM = 8192, QUOTED = 60 * 4 + 8 };

/* Why something can't be done. */
struct cause {
    char text[CAUSE_ROOM];
};

/* Sets the text, and returns false. */
bool because(struct cause *why, const char *format, ...) __attribute__((format(printf, 2, 3)));

/* A text as it may be shown, as far as there is room: without anything that a terminal would obey. */
void show_text(char *shown, size_t room, const char *text);

/* A line on standard error, without anything that a terminal would obey. */
void say(const char *format, ...) __attribute__((format(printf, 1, 2)));

/* The first 60 bytes of a text in quotes, without anything that a terminal would obey; "..." stands for the rest. */
void quote(char *quoted, size_t room, const char *text, size_t size);

#endif
