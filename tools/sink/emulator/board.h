/* What is wired to the chip's pins, by the board that a firmware is for: docs/SINK.md has the tables. */
#ifndef BOARD_H
#define BOARD_H

#include <stdbool.h>
#include <stdint.h>

enum { BOARD_AXES = 3, BOARD_INPUTS = 8 };

struct pin {
    char port; /* 'A', 'B' .. */
    uint8_t number;
};

struct board {
    const char *name; /* of its ELF, without the ending */
    struct pin steps[BOARD_AXES], directions[BOARD_AXES];
    struct pin clockwise, counter, mist, flood;
    struct pin inputs[BOARD_INPUTS];
    uint32_t duty_steps; /* the duty of the greatest speed */
};

/* Those of a chip, in its board.c; a name of NULL ends them. */
extern const struct board boards[];

/* That of the firmware that was loaded. */
extern const struct board *board;

/* Sets it by an ELF's path; false where there is none of this name. */
bool board_set(const char *elf);

/* Whether two pins are the same. */
bool board_is(struct pin one, char port, uint32_t number);

#endif
