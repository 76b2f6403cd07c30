/* Moves without lines of OUT: home, jog and seek, as docs/OUTPUT.md has them.
 *
 * What the record says meanwhile. Its counts stay, and `reference` is where the motors are. With the first pulse of
 * such a move the motors leave the path of OUT, which the record says by `off`, until a line of OUT comes, or they
 * stand where they left it.
 *
 * No line is carried out behind such a move before somebody says where the machine stands (`at`), which `ngc` knows
 * then, or the motors are where it takes them to be anyhow. */
#ifndef MANUAL_H
#define MANUAL_H

#include <stdbool.h>
#include <stddef.h>
#include <stdint.h>

#include "cause.h"

enum { HOW_ROOM = 200 };

enum manual_kind { HOMES, JOGS, SEEKS };

/* What somebody asks for. */
struct manual_wish {
    enum manual_kind kind;
    uint64_t number;     /* the asker's own */
    unsigned axes;       /* that are homed, bit 0 is X; 0 for all that the machine's file names */
    int axis;
    int sign;
    int64_t nm_per_min;
    bool is_kept_up;     /* it goes as long as it is repeated .. */
    int64_t length_nm;   /* .. or so far */
};

/* The move that is under way, and the last one that is over. */
struct manual {
    bool is_there;
    struct manual_wish wish;
    int homes;           /* the axis that is homed now */
    uint64_t ended;      /* the number of the last one; 0 for none .. */
    char how[HOW_ROOM];  /* .. and `done`, or why it came to rest */
    bool has_touched;
    int64_t touched[3];  /* where the probe was touched, in steps */
};

struct player;

/* Heeds a datagram, if it is one of these; false for others. What is to be answered, "" for nothing, is written. */
bool manual_heed(struct player *player, const char *text, size_t size, char *answer, size_t room);

/* Whether a move is to be made, or is under way. */
bool manual_is_there(struct player *player);

/* Why nothing moves where a record can't be kept. */
extern const char NO_RECORD[];

/* The tool that a person is asked for is in, but where a move without lines is under way, or left the motors elsewhere
 * than where the line begins that asks for it: the lines behind it lead on from there. */
void manual_take_tool(struct player *player);

/* The move is over, if one was taken; `how` says how it ended. The lock is held. */
void manual_end(struct player *player, const char *how);

/* The motors leave the path of OUT, if they are on it. The lock is held. */
void manual_leave_path(struct player *player);

/* They stand: where they left the path they are on it again, and where they aren't where `ngc` takes them to be it has
 * to be told. The lock is held. */
void manual_look_at_path(struct player *player);

/* How many steps an axis may go before its travel ends. The lock is held. */
int64_t manual_room(const struct player *player, int axis, int sign);

/* Sets why it goes no farther. */
void manual_say_end(const struct player *player, int axis, int sign, struct cause *why);

#endif
