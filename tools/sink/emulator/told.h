/* What the model tells: what a chip of this kind doesn't bear, and what its pins do. */
#ifndef TOLD_H
#define TOLD_H

#include <stddef.h>
#include <stdint.h>

struct edge {
    uint64_t ns;   /* since power came on first */
    uint8_t port;  /* 'A', 'B' ..; 'P' a PWM's duty, 'R' a reset */
    uint8_t pin;
    uint16_t level; /* or the duty */
};

/* Something that a chip of this kind doesn't bear, or that isn't modelled: it stops the model. */
void violation(const char *format, ...) __attribute__((format(printf, 1, 2)));

/* What the first one was, empty for none. */
const char *told_violation(void);

/* Notes that a pin changed; `told_edge` is called with it where it isn't NULL, else it is kept. */
void told_note(uint8_t port, uint8_t pin, uint32_t level);
extern void (*told_edge)(const struct edge *edge);

/* Takes edges that were kept. */
size_t told_edges(struct edge *edges, size_t room);

/* Forgets a violation that was brought about on purpose; and edges too. */
void told_forgive(void);
void told_clear(void);

#endif
