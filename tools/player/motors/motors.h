/* What makes the moves: pins of this computer, each move once it is due, or a step sink, which is given each with its
 * time, ahead. Which of the two is chosen as the player begins, and nothing else asks for it. */
#ifndef MOTORS_H
#define MOTORS_H

#include <stdbool.h>
#include <stdint.h>

#include "inputs.h"
#include "play.h"
#include "way.h"

/* A move that is to be made: before the next one so many nanoseconds pass. */
struct timed {
    const struct move *move;
    const char *text; /* of a line of OUT, with its newline .. */
    size_t size;      /* .. so many bytes; 0 for other moves */
    uint64_t ns;
    uint64_t ramp;    /* by how much its square may change, as of a line of the pacer */
    bool is_rest;     /* behind it the motors stand */
};

struct motors {
    bool keep_time;  /* each move is made as it is given: the player waits for its time */
    uint64_t room;   /* so many moves may be known ahead of the next one, and no more */

    /* Opens them, before all else: what they made that no player heard of is counted, or an alarm stands. Then begins.
     * False, with the cause. */
    bool (*open)(struct play *play, struct cause *why);
    bool (*begin)(struct play *play, struct cause *why);

    /* Begins anew, at rest: `stops` stop them at once, `halts` bring them to rest by a ramp, and those of `turned` are
     * heeded as they go off. False where the play has to stop. */
    bool (*begin_anew)(struct play *play, uint32_t stops, uint32_t halts, uint32_t turned);

    /* Waits until they want the next move, or some milliseconds: `is_time` says which. STOPPED where the play has to
     * stop before. */
    enum end (*await_next)(struct play *play, bool *is_time);

    /* Makes a move; one that isn't to be done is counted in its turn. FAILED, with the cause, where they fail; STOPPED
     * where the play has to stop while the spindle takes its time. */
    enum end (*make)(struct play *play, const struct timed *timed);

    /* Waits until all that was given is made; false where the play has to stop before. */
    bool (*await_rest)(struct play *play);

    /* Whether they make what was given. */
    bool (*are_moving)(void);

    /* Waits a little while they do. */
    void (*doze)(void);

    /* Behind how much of OUT they will be once all that was given is made. */
    struct place_in_out (*place)(const struct play *play);

    /* The outputs as they will be then. */
    struct outputs (*outputs)(const struct play *play);

    /* Sets outputs at rest, and waits for the spindle. As `make`. */
    enum end (*switch_on)(struct play *play, const struct line *line);

    /* Sets them amid a wait for the spindle; false, with the cause, where they fail. */
    bool (*set_again)(struct play *play, const struct line *line);

    /* Sets another speed of the spindle, which turns, also between two moves. Returns 0, or the number of an error;
     * `is_later` says that there is no room for it now. */
    int (*set_speed)(const struct outputs *outputs, bool *is_later);

    /* Turns spindle and coolant off, and notes it; says so if that isn't sure. */
    bool (*switch_off)(struct play *play);

    /* The inputs that are on. Returns 0, or the number of an error. */
    int (*inputs)(const struct inputs *inputs, uint32_t *on);

    /* Whether an input brought them to rest: then they stand, and were at these steps as it came. */
    bool (*are_touched)(int64_t steps[3]);

    /* Whether an input stopped them at once, which may be off again. */
    bool (*are_stopped_by_input)(void);

    /* Whether they make no more, and the play has to stop. Notes why. */
    bool (*have_stopped)(struct play *play);

    /* Has motors that move stop: by a ramp, whether they have; or dead. */
    bool (*stop)(void);
    void (*stop_dead)(void);

    /* Ends the play. */
    void (*end)(void);
};

extern const struct motors pins_motors; /* by_pins.c */
extern const struct motors sink_motors; /* by_sink.c */

/* Chooses them, by the machine's file. */
void motors_choose(struct play *play);

/* Counts a move that is made, or taken back. The lock is held. */
void motors_count(struct play *play, const struct move *move);

/* Sets outputs, but for the tool, which stays in the spindle, and waits for the spindle. As `make`. */
enum end switch_on(struct play *play, const struct outputs *outputs);

/* Notes that the pins failed. */
enum end note_pins_failed(struct play *play, int error);

#endif
