/* Where OUT's lines end: behind the last one, or at one that isn't a line. */
#ifndef OUT_END_H
#define OUT_END_H

#include "play.h"

/* Whether OUT, of which nothing is in hand and which nobody writes any more, has ended: at once where spindle and
 * coolant are off, else some time after the last writer and the last question. */
enum end end_of_session(struct play *play, bool *has_ended);

/* At OUT's end: a part of a line isn't carried out. */
enum end end_of_out(struct play *play);

/* Stops at a line that isn't one. */
enum end stop_at_line(struct play *play, const struct cause *what);

#endif
