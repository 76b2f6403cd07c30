/* The play: OUT's lines, carried out one after the other. */
#ifndef PLAY_H
#define PLAY_H

#include "machine.h"
#include "options.h"
#include "player.h"
#include "schedule.h"

/* What was carried out by this player. */
struct counts {
    uint64_t pulses;
    uint64_t waits;
    uint64_t switches;
    uint64_t dry; /* times that motors came to rest in the midst of a path, as OUT had no more lines for them */
};

/* How a piece of a play ends. */
enum end {
    CONTINUES, /* it is through, and the play goes on */
    STOPPED,   /* the play has to stop: it knows why */
    FAILED     /* the pins failed: it knows why */
};

/* Behind so many lines and bytes of OUT. */
struct place_in_out {
    uint64_t lines;
    uint64_t bytes;
};

struct motors;

struct play {
    struct player *player;
    const struct motors *motors;
    const struct options *options;
    uint64_t least_us;
    struct machine machine; /* with --machine */
    bool is_moving;         /* by the pacer: it can't stop at once */
    struct outputs set;     /* what the pins were given last, as OUT has it .. */
    int set_percent;        /* .. and the override of the spindle then */
    uint32_t stops_at;      /* inputs at which it does all the same; bit n is input n */
    struct schedule schedule;
    struct counts counts;
    int64_t left_at;  /* since when nobody writes OUT any more; 0 */
    struct cause why; /* it stops */
};

/* Makes it ready, before other threads begin. */
void play_begin(struct play *play);

/* Plays, and returns the exit status, but for a record that can't be kept. Spindle and coolant are off then. */
int play_out(struct play *play);

#endif
