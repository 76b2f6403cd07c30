/* A step sink: takes words of steps from a serial line, and makes each in its time. For a chip without an operating
 * system: it allocates nothing, waits for nothing, and has no floating point.
 *
 * Why no word is made twice or left out, whatever comes on the line. At each moment
 *
 *     the words that were made, then those in the FIFO, are words 0 to `taken` - 1 of the sender, in order and once
 *     each, and `made` of them are made.
 *
 * It holds when the chip starts, where all is 0. Only three things change it. A frame is put in where its CRC holds,
 * its session is this one and the number of its first word is `taken`, and then whole: these are the words that come
 * next, and `taken` grows by them. A word is made from the FIFO's front, and `made` grows by one. A session begins
 * where the sender names the last one, while nothing runs: the FIFO is dropped, `taken` is `made`, and the sender gives
 * words from there on, once an answer with its own token has told it; what is still on its way from before names
 * another session or token. Frames that are lost, damaged, doubled, late or out of order do none of the three. What
 * stops it leaves `made` as it is: what is in the FIFO isn't made.
 *
 * Why it always comes to rest by the slopes. A word's slope says how much the square of the rate may change from it to
 * the next. So long as no rest is in the FIFO no word is faster than the slopes of those behind it in the FIFO allow,
 * added up: then they are enough for a stop. Each word that is made takes one slope from that sum, so a word that is
 * made longer for it loses one slope; and behind one that was made longer no word gains more than one. What isn't made
 * longer changes as it was sent. So the motors can follow what is made, if they can follow what was sent. */
#ifndef SINK_H
#define SINK_H

#include <stdbool.h>
#include <stdint.h>

#include "wire.h"

enum {
    SINK_ANSWERS_MS = 5,
    SINK_SILENCE_MS = 500,
    SINK_BEGINS_MS = 10,     /* of words that don't end at rest are in the FIFO before it runs .. */
    SINK_BEGINS_WORDS = 256, /* .. or so many */
    SINK_SLICE = WIRE_TICKS_A_MS / 2, /* inputs and stops are looked at at least each 1 ms while a long word lasts */
    SINK_HANGS_MS = 20,   /* the main loop doesn't come by for so long: it hangs */
    SINK_BRAKES_MS = 1000 /* the watchdog waits for so long while the sink comes to rest then */
};

/* What was taken; each number counts on from 2^32 - 1 to 0. */
struct sink_taken {
    uint32_t words; /* made, and in the FIFO */
    uint32_t rises; /* the slopes of all of them, added up */
    uint32_t rest;  /* words up to the last rest */
};

/* `made`, `state` and what the timer's half keeps are written by sink_make while the state is SINK_RUNS, else by
 * sink_poll; `taken`, `newest`, `asked` and `polls` by sink_poll alone. What both read is volatile, and loads and stores
 * of 32 bits must be whole. */
struct sink {
    volatile uint32_t values[WIRE_FIFO]; /* the FIFO: word n is at n modulo WIRE_FIFO */
    volatile uint8_t bits[WIRE_FIFO];
    volatile struct sink_taken taken[2]; /* one is in force, the other one is written: they change in one store .. */
    volatile uint8_t newest;             /* .. of this number */
    volatile uint32_t made;
    volatile uint32_t touched;
    volatile uint32_t lines;   /* that were made in this session */
    volatile bool is_beside;   /* it made something else than lines and extra steps too */
    volatile uint8_t state; /* enum sink_state */
    volatile uint8_t fault; /* enum sink_fault */
    volatile uint8_t asked; /* a fault that is to be stopped for */
    volatile bool is_touched;
    volatile bool is_hung;
    volatile uint8_t polls; /* of the main loop; counts on */
    volatile uint16_t dry;
    /* The timer's half. */
    uint32_t rises_made; /* the slopes of all words that were made, added up */
    uint32_t square;     /* the greatest of the last word */
    uint32_t lasted;     /* ticks of that word; the most where the motors stood */
    uint32_t left;       /* ticks of it that are still to come */
    uint32_t part;       /* ticks that the last call returned */
    uint32_t unpolled;   /* ticks for which the main loop hasn't come by */
    uint8_t polls_seen;
    uint16_t steady;     /* inputs that stop dead and were on at each look .. */
    uint32_t steady_for; /* .. of so many ticks */
    uint32_t speed_low;  /* of the next switches */
    bool is_rest;        /* it ends at rest .. */
    bool is_still;       /* .. or is so slow that the motors may stand */
    bool is_slowed;      /* it was made longer than it was given */
    bool is_braking;
    struct sink_outputs outputs;
    /* The main loop's half. */
    uint32_t session;
    uint64_t mark;       /* the sender's, for who comes after it */
    uint32_t token;      /* by which the sender that began it knows its session */
    struct sink_inputs inputs;
    uint16_t lost;
    uint32_t heard_at;   /* ticks at which the sender was heard last */
    uint32_t answered_at;
    uint32_t looked_at;  /* when the main loop came by last */
    struct wire_reader reader;
    uint8_t body[WIRE_ANSWER + WIRE_CRC];
    uint8_t line[WIRE_ANSWER + WIRE_CRC + 2];
};

/* Makes it ready. `boot` differs from that of the last boots, as a count that the chip keeps does: by it what was on
 * its way before the chip started again isn't taken. */
void sink_start(struct sink *sink, uint16_t boot, uint32_t now);

/* The main loop's part, at least once a millisecond: takes what came, answers. `now` are ticks of 1/8 us, which count
 * on from 2^32 - 1 to 0. */
void sink_poll(struct sink *sink, uint32_t now);

/* The timer's part: makes the next word if it is due. Returns after how many ticks it is to be called again, 0 for
 * never: the state isn't SINK_RUNS then. */
uint32_t sink_make(struct sink *sink);

/* Stops where it has to: dead for an input of `stops` and where that was asked for, for all else where the motors may
 * stand. `passed` ticks after it was called last. Called by sink_make while the state is SINK_RUNS, else by
 * sink_poll. */
bool sink_has_to_stop(struct sink *sink, uint32_t passed);

/* What was taken. */
const volatile struct sink_taken *sink_taken(const struct sink *sink);

/* The fault for which it is to come to rest. */
uint8_t sink_asked(const struct sink *sink);

/* The inputs that are on. */
uint16_t sink_inputs(const struct sink *sink);

/* Turns spindle and coolant off; the tool stays. */
void sink_switch_off(struct sink *sink);

#endif
