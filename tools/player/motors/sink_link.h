/* The link to a step sink (tools/sink): it takes moves with their times, and counts in the player what the sink has
 * made of them, and nothing else. A thread of its own sends and hears; the calls are for the thread that plays. */
#ifndef SINK_LINK_H
#define SINK_LINK_H

#include <stdbool.h>
#include <stdint.h>

#include "../../sink/wire.h"
#include "cause.h"
#include "motors.h"
#include "play.h"
#include "way.h"

/* So many lines may be known ahead of the next one, and no more: then a stop has room in the sink's FIFO, behind what
 * is sent ahead against lateness. */
enum { LINK_LINES = 1200 };

/* What the sink said last. */
struct link_state {
    bool is_done;       /* all that was given is made, and the motors stand */
    uint8_t state;      /* enum sink_state */
    uint8_t fault;      /* enum sink_fault */
    uint16_t inputs;    /* that are on */
    bool is_touched;    /* an input of `halts` came on in this session .. */
    int64_t touched[3]; /* .. when the motors were here, in steps */
    uint64_t dry;       /* how often the sink came to rest as it had no more words */
};

/* Opens the line of the machine's settings, and starts the thread. What is made is counted in `play`. `left` is what
 * the sink says of its last session, once that is over: waits for it. Returns false, with the cause, if no sink answers
 * for some seconds. */
bool link_open(struct play *play, struct sink_answer *left, struct cause *why);

/* The mark of a session that begins now: which OUT it is, and behind how many of its bytes; a pipe has none. */
uint64_t link_mark(const struct player *player);

/* Begins a session, at rest, with these inputs; what was given before and isn't made is dropped. All outputs but the
 * tool are off then. Waits for it; false, with the cause, if no sink answers for some seconds. An input that stops may
 * be on: then the session is over at once. */
bool link_begin(const struct sink_inputs *inputs, struct cause *why);

/* Whether more is to be given now, so that the sink doesn't have to slow down. */
bool link_wants(void);

/* Gives a move that lasts so many nanoseconds before the next one; where it isn't to be done it is counted in its turn.
 * `ramp` is by how much its square may change, as of a line of the pacer; behind one that `is_rest` the motors stand. A
 * wait is a line D; a line S is outputs, and then a rest. `is_of_out`: it is a line of OUT. link_wants was true. */
void link_give(const struct move *move, uint64_t ns, uint64_t ramp, bool is_rest, bool is_of_out);

/* Gives another speed of the spindle, in millionths, amid what moves; false where there is no room for now. */
bool link_speed(uint64_t speed);

/* The outputs, and behind how much of OUT, as it will be once all that was given is made. */
struct outputs link_outputs(void);
struct place_in_out link_place(void);

/* Waits until something has changed since the last call, and at most so many milliseconds. */
void link_await(int ms);

struct link_state link_look(void);

/* Whether the session is over, as the sink stopped or isn't heard: why, in a word for the record, and in words. */
bool link_is_over(const char **word, const char **text);

/* Has the sink stop, by its ramp or dead, and waits until it has. What was given beyond isn't made. */
void link_stop(bool is_dead);

/* Turns spindle and coolant off, at rest; false where it isn't sure that they are. */
bool link_switch_off(void);

/* Ends the session, at rest, so that who comes next knows that all is counted; and the thread. */
void link_close(void);

#endif
