/* Streams by chance with the times that the pacer of tools/player gives them. */
#ifndef CHANCE_PACED_H
#define CHANCE_PACED_H

#include "chance_streams.h"
#include "judge.h"

enum { MOST_LINES = 40000 };

extern struct chance chance;
extern struct timed_line lines[MOST_LINES + 1];
extern size_t count; /* of the lines, without the end behind them */

/* Makes lines without times, in several parts, with waits and switches. Periods are near the rates that the motors
 * reach, and none is less than `least_us`. */
void make_stream(const struct motors *motors, double least_us);

/* Gives all lines their times: of a reader that knows many lines or few, and tells the end of what is known where it
 * has nothing to give; of an operator who holds and overrides, in one stream of three. */
void pace_all(const struct motors *motors);

#endif
