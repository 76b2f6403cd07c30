/* Streams of pulses by chance, as programs and their noise make them: straight moves, periods by turns, arcs, splines,
 * shuttles, zigzags, and pulses to all sides. */
#ifndef CHANCE_STREAMS_H
#define CHANCE_STREAMS_H

#include <stdbool.h>
#include <stdint.h>

struct chance {
    uint64_t state;
};

enum { MOST_PERIODS = 4 };

/* A part of a stream: its pulses go by one of the kinds. */
struct part {
    int kind;
    uint64_t pulses; /* that are left */
    uint64_t made;
    uint64_t us[MOST_PERIODS]; /* by turns */
    unsigned periods;
    int plane;     /* by how many axes all of it is turned */
    double slope[3];
    double turn;   /* of a spline's direction, in radians a pulse */
    double radius; /* of an arc, in steps */
    double angle;
    double share;  /* how much of a step of its second axis an arc is behind */
    uint64_t back; /* a shuttle or zigzag turns after so many pulses */
    double place[3];
    int64_t at[3];
};

struct chance chance_of(uint64_t seed);
uint64_t chance_below(struct chance *chance, uint64_t below);
double chance_between(struct chance *chance, double low, double high);

/* The same in the exponent: small numbers are as likely as great ones. */
double chance_of_size(struct chance *chance, double low, double high);

/* A part whose pulses last `least_us` to `most_us`. */
struct part part_by_chance(struct chance *chance, double least_us, double most_us);

/* Its next pulse, and how long that lasts. */
uint64_t part_pulse(struct part *part, struct chance *chance, int step[3]);

#endif
