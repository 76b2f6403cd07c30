/* Moves as words of a step sink, and what the words that it has made come to. */
#ifndef SINK_WORDS_H
#define SINK_WORDS_H

#include "../../sink/sender.h"
#include "play.h"
#include "way.h"

/* A move that was given; it is made once so many words are. */
struct given {
    uint32_t words;
    struct move move;
};

struct words {
    const struct play *play;
    struct given moves[SENDER_ROOM]; /* in order, round and round .. */
    uint32_t first;                  /* .. from here .. */
    uint32_t end;                    /* .. to here */
    uint64_t lines;                  /* of OUT, once all of them are made .. */
    uint64_t bytes;
    struct outputs outputs;          /* .. and the outputs then */
    int64_t left_ns;                 /* by which the words so far are too short */
    uint64_t left_ticks;             /* of a wait, still to be given as words */
    uint64_t last_ramp;              /* of the move before; the greatest number behind a rest */
    unsigned dry;                    /* as the sink has said */
};

/* Nothing is given; the counts are those of the player. */
void words_begin(struct words *words, const struct play *play);

/* Whether there is room for a move. */
bool words_have_room(const struct words *words, const struct sender *sender);

/* Gives a move, as link_give says; whether it is the next line of OUT. */
void words_give(struct words *words, struct sender *sender, const struct move *move, uint64_t ns, uint64_t ramp,
                bool is_rest, bool is_line);

/* Gives what is left of a wait, as far as it is wanted. */
void words_top_up(struct words *words, struct sender *sender);

/* Gives outputs with spindle and coolant off; no move stands for them. */
void words_switch_off(struct words *words, struct sender *sender);

/* Counts the moves of so many words that are made. */
void words_count(struct words *words, struct play *play, uint32_t made);

/* Whether all that was given has been counted. */
bool words_are_made(const struct words *words);

#endif
