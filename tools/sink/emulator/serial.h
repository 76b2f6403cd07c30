/* The line: bytes as bits in time, each way, sampled in their middles by who receives them. */
#ifndef SERIAL_H
#define SERIAL_H

#include <stdbool.h>
#include <stddef.h>
#include <stdint.h>

enum { SERIAL_BYTES = 1 << 16, SERIAL_BITS = 10 };

struct serial_byte {
    uint64_t from; /* when its start bit begins */
    uint64_t bit;  /* how long its sender's bits last */
    uint64_t cut;  /* from when on the line is high, as it was pulled out */
    uint8_t byte;
};

/* One direction. */
struct serial {
    struct serial_byte bytes[SERIAL_BYTES];
    uint32_t begin, end;
    uint64_t seeks; /* from here on the receiver looks for a start */
    uint64_t begun; /* the start that it has found */
    uint64_t bit;   /* of the receiver; 0 where it is off */
    int event;
};

extern struct serial serial_to_chip;
extern struct serial serial_from_chip;

/* Puts a byte on the line. */
void serial_put(struct serial *line, uint8_t byte, uint64_t from, uint64_t bit);

/* The receiver looks for the next start. */
void serial_seek(struct serial *line);

/* What the receiver has sampled by the middle of the stop bit; whether that was high. */
uint8_t serial_sample(struct serial *line, bool *is_framed);

/* The other end heard a byte. */
void serial_hear(void);

/* The chip starts again: its own end of the line is off. All is as new. */
void serial_reset(void);
void serial_clear(void);

/* What the other end does: sends as soon as the line is free; how many bytes still are to come; takes what it heard
 * with the nanoseconds, where `ns` isn't NULL; pulls the line out or puts it in. */
void serial_send(const uint8_t *bytes, size_t size);
size_t serial_sending(void);
size_t serial_heard(uint8_t *bytes, uint64_t *ns, size_t room);
void serial_pull(bool is_out);

#endif
