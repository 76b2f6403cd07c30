/* Lengths and points as text, in millimetres. */
#ifndef PLACE_H
#define PLACE_H

#include <stdbool.h>
#include <stddef.h>
#include <stdint.h>

enum {
    PLACE_ROOM = 96 /* bytes for a point */
};

/* Millimetres of at most twelve digits and six decimals, as "7.21", in nanometres. */
bool nm_read(const char *text, size_t size, int64_t *nm);

/* "X Y Z" in machine millimetres with six decimals. */
void place_print(char *text, size_t room, const int64_t nm[3]);

/* Reads three millimetres with one blank between them. */
bool place_read(const char *text, size_t size, int64_t nm[3]);

#endif
