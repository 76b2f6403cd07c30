/* Datagrams that begin a move without lines. */
#ifndef MANUAL_WORDS_H
#define MANUAL_WORDS_H

#include "manual.h"

enum reading { OTHER_WORDS, WRONG_WORDS, WISH_WORDS };

/* Reads one that begins a move. Of wrong words of such a one the number is read. */
enum reading manual_read(const char *text, size_t size, struct manual_wish *wish);

extern const char *const manual_verbs[];

#endif
