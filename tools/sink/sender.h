/* The sender's half: keeps words until the sink has made them, frames them, sends again what was lost, and counts what
 * was made. It has no clock and no line of its own, and allocates nothing.
 *
 * A session begins once the sink stands. Words are given from `given` on, which is then how many the sink has made
 * since its chip started: so a sender that was killed is followed by one that knows which word is next.
 *
 * Where words are given as long as sender_wants asks for them, the sink makes each in its time, if none is later on the
 * line than the window: it has those of the window in hand, and behind them as many as a stop takes. */
#ifndef SENDER_H
#define SENDER_H

#include <stdbool.h>
#include <stddef.h>
#include <stdint.h>

#include "wire.h"

/* The clock of a player is the real one: over an emulated chip, which is slow, a test makes it more patient. */
#ifndef SENDER_PATIENCE
#define SENDER_PATIENCE 1
#endif

enum {
    SENDER_ROOM = WIRE_FIFO, /* words given and not known to be made */
    SENDER_BEGINS_MS = 20,   /* a session's beginning is asked for again after so long */
    SENDER_SPEAKS_MS = 5,    /* with no words to send it says after so long how many it sent */
    SENDER_DEAF_MS = 2000 * SENDER_PATIENCE, /* without an answer it says that it is deaf after so long */
    SENDER_NEW_ANSWERS = 20  /* so many in a row are of a chip that started again: 100 ms */
};

enum sender_state {
    SENDER_SEEKS,  /* no answer yet, or the sink still makes words of another session */
    SENDER_BEGINS, /* the sink stands; a session is asked for */
    SENDER_LINKED, /* words go to the sink */
    SENDER_ENDED,  /* the sink has stopped: `sink` says why, and its count is final */
    SENDER_RESET   /* the chip started again: at least `sink.made` words were made, and how many more isn't known */
};

/* A word that was given. Ticks and slopes are those of all words of the session before it, added up. */
struct sender_word {
    uint32_t value;
    uint8_t bits;
    uint64_t due;    /* ticks */
    uint64_t wanted; /* slopes up to which words have to be given, so that a stop from this one is in hand */
};

struct sender {
    struct sender_word words[SENDER_ROOM]; /* word n is at n modulo SENDER_ROOM */
    uint32_t given;
    uint32_t sent;
    uint32_t most_sent;    /* as `sent` was before it went back */
    uint32_t looked;       /* words that begin within the window, or that were made */
    uint64_t due;          /* ticks of all that was given .. */
    uint64_t rises;        /* .. and their slopes; a rest is as much as a stop needs */
    uint64_t most_wanted;  /* the most that a word that was given wants .. */
    uint64_t now_wanted;   /* .. and one that was looked at */
    uint32_t window_ticks;
    uint64_t mark;
    uint32_t session;
    uint32_t token;
    uint32_t spoke_at;     /* ms */
    uint32_t heard_at;     /* ms */
    uint8_t state;         /* enum sender_state */
    bool listens;          /* it begins no session */
    uint8_t new_answers;   /* in a row, of a chip where no session has begun */
    bool is_heard;         /* an answer came since it began to seek */
    bool has_heard;        /* one of this session came since the last sender_write */
    bool has_spoken;
    bool is_deaf;          /* linked, and no answer came for SENDER_DEAF_MS: the sink stops by itself, if it lives */
    struct sink_inputs inputs;
    struct sink_answer sink; /* the newest answer; before SENDER_LINKED it is of the last session */
    struct wire_reader reader;
};

/* Seeks the sink. `token` isn't 0, and another one each time, of whatever process, as the clock's microseconds are: by
 * it a late answer of an earlier session isn't taken for one of this. `window_ticks` of 1/8 us, 160,000 for 20 ms: a
 * pause of the sender may be so long. At least 80,000, with which the sink begins. `mark` is a number of the sender's
 * for who comes after it, or WIRE_NO_MARK: until the next session the sink tells it with the lines that it has made. */
void sender_begin(struct sender *sender, uint32_t token, const struct sink_inputs *inputs, uint32_t window_ticks,
                  uint64_t mark);

/* Listens to a sink, and begins no session: `sink` is what it said last, once `is_heard`. */
void sender_listen(struct sender *sender);

/* What becomes of what is given; but for GIVE_TAKEN nothing of it is taken. */
enum sender_give {
    GIVE_TAKEN,
    GIVE_LATER,  /* there is no session, or no room for now */
    GIVE_REFUSED /* it isn't a word, as where it lasts less than WIRE_LEAST_TICKS: no sink makes it */
};

/* Whether words are to be given now: those of the window, and as many behind them as a stop takes, aren't in hand. Not
 * beyond the sink's room. */
bool sender_wants(struct sender *sender);

/* Gives the next word: `slope` is a byte as of wire_slope_byte, with WIRE_LINE_BIT where a line is made with it. The
 * last one before a pause of any length has to have WORD_REST; without it the sink comes to rest before. */
enum sender_give sender_give(struct sender *sender, uint32_t ticks, uint8_t slope, uint8_t bits);

/* Gives the two words of outputs, at rest; whether they are a line's. */
enum sender_give sender_switch(struct sender *sender, const struct sink_outputs *outputs, bool is_line);

/* Gives the spindle's speed alone, in millionths, in its place among the words: between two steps too. */
enum sender_give sender_speed(struct sender *sender, uint64_t speed);

/* Writes the next frame for the line, which has room for WIRE_LINE; returns its size, 0 where there is none now. To be
 * called about once a millisecond until it returns 0. `now` in milliseconds, which may wrap. */
size_t sender_write(struct sender *sender, uint32_t now, uint8_t *line);

/* Writes a frame that brings the sink to rest by the slopes, or stops it dead, at once. */
size_t sender_stop(const struct sender *sender, bool is_at_once, uint8_t *line);

/* Takes a byte from the line. */
void sender_read(struct sender *sender, uint8_t byte);

/* Why the sink stopped, in words. */
const char *sender_why(const struct sender *sender);

#endif
