/* The bytes between sender and sink: words, frames, and what marks a damaged one. docs/SINK.md has them by bytes. */
#ifndef WIRE_H
#define WIRE_H

#include <stdbool.h>
#include <stddef.h>
#include <stdint.h>

enum {
    WIRE_WORD = 5,   /* bytes of a word: 24 bits of ticks, a byte of its slope, then the bits below */
    WIRE_WORDS = 48, /* most words of a frame */
    WIRE_HEAD = 9,   /* bytes before the words: kind, session, the number of the first word */
    WIRE_CRC = 4,
    WIRE_BODY = WIRE_HEAD + WIRE_WORDS * WIRE_WORD + WIRE_CRC, /* most bytes of a frame: 253 */
    WIRE_LINE = WIRE_BODY + 2,                                 /* and as it goes over the line */
    WIRE_BEGIN = 25,  /* bytes of a frame that begins a session, without its CRC */
    WIRE_STOP = 6,    /* of one that stops */
    WIRE_ANSWER = 41, /* of an answer */
    WIRE_FIFO = 2048, /* words that the sink has room for: what a stop takes */
    WIRE_TICKS_A_MS = 8000,
    WIRE_LEAST_TICKS = 40,       /* 5 us: no word is shorter; an output word lasts that long */
    WIRE_MOST_TICKS = 0xffffff,  /* 2 s */
    WIRE_MOST_SLOPE = 127,       /* the byte of the greatest slope: WIRE_FIFO of these add up to less than 2^32 */
    WIRE_LINE_BIT = 0x80         /* of the byte of a slope: a line of the sender's is made with this word */
};

#define WIRE_NO_MARK UINT64_MAX

/* The last byte of a word. */
enum {
    WORD_STEPS = 0x07,  /* a step of X (bit 0), Y and Z .. */
    WORD_DOWN = 0x38,   /* .. which counts down: X (bit 3), Y and Z. Of an axis without a step: the steps are extra */
    WORD_REST = 0x40,   /* the motors stand once this word's step is made: it may be the last one for any time */
    WORD_OUTPUT = 0x80, /* not a step: 32 bits in the place of ticks and slope are of the outputs .. */
    WORD_SWITCH = 0x01, /* .. the switches, which take effect now; else the low bits of the speed for the next ones */
    WORD_LINE = 0x02,   /* .. with which a line of the sender's is made; or .. */
    WORD_SPEED = 0x04   /* .. the spindle's speed alone, amid steps too: it lasts no time */
};

enum wire_kind { KIND_WORDS = 1, KIND_BEGIN = 2, KIND_STOP = 3, KIND_ANSWER = 4 };

/* What a sink does. */
enum sink_state {
    SINK_NEW,     /* power came on, and no session has begun */
    SINK_STANDS,  /* at rest; words are taken */
    SINK_RUNS,    /* it makes words */
    SINK_STOPPED, /* it has stopped, at rest: the count is where the motors are */
    SINK_BROKEN   /* it has stopped dead, in motion: where the motors are isn't to be trusted */
};

/* Why it has stopped. */
enum sink_fault {
    FAULT_NONE,
    FAULT_SILENT,  /* nothing came from the sender for SINK_SILENCE_MS */
    FAULT_WORD,    /* a frame that isn't damaged holds a word that isn't one */
    FAULT_ASKED,   /* the sender asked for a stop */
    FAULT_TOUCHED, /* an input of `halts` was on */
    FAULT_INPUT,   /* an input of `stops` was on: it stopped dead */
    FAULT_DEAD,    /* the sender asked for a stop at once: it stopped dead */
    FAULT_HUNG     /* the main loop didn't come by: the timer alone brought it to rest */
};

/* Inputs, by bits. */
struct sink_inputs {
    uint16_t stops;       /* that stop the sink dead .. */
    uint16_t halts;       /* that bring it to rest */
    uint16_t low;         /* that are on while their pin is low */
    uint16_t debounce_us; /* .. once they were on for so long; 0 for one look */
};

/* The outputs, as an S line of OUT has them. */
struct sink_outputs {
    uint64_t speed;   /* in millionths, below 2^44 */
    uint8_t spindle;  /* 0 stopped, 1 clockwise, 2 counter-clockwise */
    uint8_t mist;
    uint8_t flood;
    uint8_t selected; /* 0 to 128 */
    uint8_t slot;
};

/* What an answer says. */
struct sink_answer {
    uint32_t session;
    uint32_t taken;   /* words made, and those in the FIFO */
    uint32_t made;    /* words made since the chip started; counts on from 2^32 - 1 to 0 */
    uint8_t state;
    uint8_t fault;
    uint16_t inputs;  /* 1 where one is on */
    uint16_t lost;    /* frames that were damaged, or came without the one before them; counts on from 65,535 to 0 */
    uint32_t token;   /* of the sender that began the session */
    uint32_t touched; /* words that were made when an input of `halts` came on; 0 before */
    uint16_t dry;     /* how often it came to rest in the midst of a path, as it had no more words; counts on */
    uint64_t mark;    /* as the session's begin had it; WIRE_NO_MARK once more than lines and extra steps was made */
    uint32_t lines;   /* that were made in this session */
};

/* A frame as it comes, byte by byte. */
struct wire_reader {
    uint8_t body[WIRE_BODY];
    uint16_t used;
    uint8_t left; /* bytes up to the next zero that was left out */
    bool is_begun;
    bool is_bad;
};

enum wire_taken { WIRE_MORE, WIRE_FRAME, WIRE_DAMAGED };

void wire_put16(uint8_t *to, uint16_t value);
void wire_put32(uint8_t *to, uint32_t value);
void wire_put64(uint8_t *to, uint64_t value);
uint16_t wire_get16(const uint8_t *from);
uint32_t wire_get32(const uint8_t *from);
uint64_t wire_get64(const uint8_t *from);

/* The CRC-32 of IEEE 802.3, as zlib has it. */
uint32_t wire_crc(const uint8_t *bytes, size_t size);

/* Puts the CRC behind `size` bytes of `body`, which has room for WIRE_BODY, and writes the frame to `line`, which has
 * room for WIRE_LINE, without zeros in it and with one at its end. Returns how many bytes that is. */
size_t wire_frame(uint8_t *line, uint8_t *body, size_t size);

/* Takes a byte. At WIRE_FRAME `body` holds a whole frame of `*size` bytes without its CRC, until the next byte. */
enum wire_taken wire_take(struct wire_reader *reader, uint8_t byte, size_t *size);

/* Whether the 32 bits and the last byte of a word are one: of at least WIRE_LEAST_TICKS, or at rest, of outputs as an S
 * line may have them. */
bool wire_is_word(uint32_t value, uint8_t bits);

/* Whether a word is a speed alone; and the speed, in millionths, of its 32 bits, which are 1/128 of a turn a minute. */
bool wire_is_speed(uint8_t bits);
uint64_t wire_speed(uint32_t value);

/* The parts of a word of a step. */
uint32_t wire_ticks(uint32_t value);
uint32_t wire_slope(uint32_t value);

/* Whether a line of the sender's is made with a word. */
bool wire_is_line(uint32_t value, uint8_t bits);

/* Whether a word is of extra steps, by which the sender takes up backlash between lines. */
bool wire_is_extra(uint8_t bits);

/* The slope of a byte: the square of the rate may change by so much from one word to the next. A square is 1 where
 * words come each 2^21 ticks, and 2^42 over the square of the ticks else. */
uint32_t wire_slope_of(uint8_t byte);

/* The byte of the greatest slope that isn't above one of at least 8; that of 8 for less. */
uint8_t wire_slope_byte(uint64_t slope);

/* Writes and reads an answer's body; false where it isn't one. */
size_t wire_put_answer(uint8_t *body, const struct sink_answer *answer);
bool wire_get_answer(const uint8_t *body, size_t size, struct sink_answer *answer);

/* The two words of outputs, of which the second takes effect; and the outputs of two words. */
void wire_put_outputs(uint32_t *low, uint32_t *switches, const struct sink_outputs *outputs);
void wire_get_outputs(uint32_t low, uint32_t switches, struct sink_outputs *outputs);

#endif
