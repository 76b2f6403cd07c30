/* What the threads of a player share. One carries out lines, one answers questions, one keeps the record. */
#ifndef PLAYER_H
#define PLAYER_H

#include <limits.h>
#include <pthread.h>
#include <stdatomic.h>
#include <stdbool.h>
#include <stdint.h>

#include "alarm.h"
#include "backlash.h"
#include "cause.h"
#include "errand.h"
#include "keeper.h"
#include "line.h"
#include "manual.h"
#include "record.h"
#include "source.h"

enum { NO_TOOL = -1 };

struct player {
    /* Set before the threads begin. */
    char out[PATH_MAX]; /* the path of OUT, without links in it */
    int64_t step_nm[3];
    uint64_t least_us;
    int64_t traverse_nm_per_min;
    int64_t low_nm[3]; /* the travel */
    int64_t high_nm[3];
    const struct machine *machine; /* NULL without --machine */
    struct backlash backlash;      /* none without it */
    struct keeper keeper;
    int socket; /* -1 where nobody can ask */
    int wake;   /* an event: there are lines in hand */
    int keep;   /* an event: the record is to be written at once */

    pthread_mutex_t lock;
    /* Under `lock`. */
    struct source source;
    uint64_t lines;
    uint64_t bytes;
    int64_t steps[3];
    int screws[3]; /* as backlash.h has them */
    struct outputs outputs;
    const char *stopped; /* what ended it before OUT's end, in a word; "" */
    struct errand errand;
    struct manual manual;
    struct outputs again; /* what a person switched off, amid lines: it comes on again before the next one that .. */
    bool has_again;       /* .. doesn't say itself what is on */
    unsigned homed;      /* the axes that were homed since it began and no alarm came; bit 0 is X */
    bool is_off;         /* the motors left the path of OUT by a move without lines, and no line came since */
    bool is_sure;        /* where they are was told by a person, or by the sink, since it began */
    bool is_amid_move;   /* they move without lines, or along a way: a record that stays says so */
    uint64_t moves;      /* how often that began */
    bool is_unsure;      /* the last player's record stayed so, and nobody told since where the motors are */
    bool has_path;       /* the motors left the path of OUT, and it is known where .. */
    int64_t path[3];     /* .. in steps: there the lines lead that are carried out */
    int64_t told_at[3];  /* where `ngc` took the motors to be as they moved without lines, in steps */
    enum alarm alarm;
    bool is_over_sink;   /* what the sink makes isn't heard to its end yet: a record that stays says so */
    bool is_broken;      /* lines were dropped for an alarm: no more of them are carried out */
    bool awaits_record;  /* the record couldn't be kept: nothing moves before another session */
    struct record left; /* the record as it was, if it speaks of this OUT */
    bool has_left;
    struct record kept;  /* the record on the disk .. */
    int64_t kept_at;     /* .. as it stood then */

    atomic_uint worst_ms;     /* how old the record on the disk was at most while something newer was there */
    atomic_int tool;          /* the slot that a person is asked for, or NO_TOOL */
    atomic_int record_error;  /* why the record can't be kept now; 0 .. */
    atomic_int record_why;    /* .. and why it couldn't be last */
    atomic_bool is_held;      /* somebody asks for a rest */
    atomic_bool is_untold;    /* they moved without lines, and nobody said since that `ngc` knows where they are */
    atomic_bool stands_held;  /* it has come to rest for that */
    atomic_bool waits_spindle; /* a switch waits until the spindle is at its speed .. */
    atomic_bool turns;        /* .. or for the seconds that it takes */
    atomic_uint on;           /* the inputs that are on, as they were looked at last */
    atomic_bool wants_off;    /* spindle and coolant are to go off */
    atomic_bool wants_anew;   /* the session is over, and another one follows .. */
    atomic_bool stays;        /* .. for which it waits, though nobody writes OUT meanwhile */
    atomic_bool manual_stops; /* the move without lines is to end */
    _Atomic int64_t kept_up_at; /* when a jog was asked for last */
    atomic_int percent;       /* of OUT's rates */
    atomic_int spindle_percent; /* of OUT's speeds of the spindle */
    atomic_uint wants;        /* how many lines are wanted in hand; 0 doesn't say */
    _Atomic uint64_t last;    /* after so many bytes of OUT no more come for now, as was said */
    atomic_bool over;         /* the other threads are to end */
    atomic_bool has_ended;    /* whoever asks said that the session is over */
    _Atomic int64_t asked_at; /* when the last question came; 0 */
};

void player_lock(struct player *player);
void player_unlock(struct player *player);

/* What stands now, for the record. */
void player_record(struct player *player, struct record *record);

/* Notes which record is on the disk, if it could be written. */
void player_kept(struct player *player, const struct record *record, int error);

/* Whether the record on the disk has where the motors stand, and the lines up to there. */
bool player_is_kept(struct player *player);

/* Where the machine stands, in nanometres. `lock` is held. */
void player_place(const struct player *player, int64_t nm[3]);

/* The motors are to be elsewhere than where OUT led them. `lock` is held. */
void player_leave_path(struct player *player);

/* The motors are where the lines lead that are carried out. `lock` is held. */
void player_be_on_path(struct player *player);

/* So many lines and bytes are carried out: where that are others than before, the motors are where they lead. `lock`
 * is held. */
void player_count(struct player *player, uint64_t lines, uint64_t bytes);

/* What the player does, in a word or two, as `progress` is answered. */
void player_doing(struct player *player, char *text, size_t room);

/* A length in whole steps, half a step away from zero. */
int64_t in_steps(int64_t nm, int64_t step_nm);

/* How many microseconds a step of an axis takes at such a rate, rounded up: none is above that of traverses. */
uint64_t player_step_us(const struct player *player, int axis, int64_t nm_per_min);

/* The thread that keeps the record, each 20 ms. */
void *record_keep(void *player);

#endif
