/* What a play waits for: a line's time, a person, a console. */
#ifndef WAITS_H
#define WAITS_H

#include <stdbool.h>

#include "play.h"

enum { SLICE_MS = 20 }; /* how long it sleeps at most before it looks whether it is to stop */

/* Notes what stops the play, in a word, and why, in `play->why`. The word of an alarm stays. */
void note_stop(struct play *play, const char *word);

/* Whether the play is to come to rest and stop then: somebody asks for it, or the record can't be kept. */
bool is_rest_asked(const struct play *play);

/* Looks at all that stops a play, and heeds what people ask for at rest; whether the play has to stop now: for an
 * alarm; and where it moves only if it is asked for once more. Notes why. */
bool heed_stops(struct play *play);

/* Waits for so many nanoseconds; false where the play has to stop before. */
bool wait_for(struct play *play, int64_t ns);

/* Waits until the next line is due; false where the play has to stop before. */
bool wait_until_due(struct play *play);

/* Whether nobody writes OUT any more. Of a file that is followed only those who ask can be seen. */
bool is_left(struct play *play);

/* Whether the seconds of --off-after have passed since the last writer was gone and the last question came. */
bool have_seconds_passed(struct play *play);

/* Whether a person has to put a tool in for a line. */
bool asks_for_tool(const struct play *play, const struct line *line);

/* Waits until a person says that the tool of such a slot is in, by Enter or over the socket. Meanwhile the motors jog
 * and seek, and have to be back then. STOPPED where the play has to stop, FAILED where the pins fail. */
enum end await_tool(struct play *play, unsigned slot);

/* Waits until a person says that what is switched on is as it should be; false where that isn't said, or the play has
 * to stop. */
bool await_look(struct play *play);

/* Stands where the record can't be kept, with spindle and coolant off: no more line of the session is carried out.
 * Whether another one follows, once the record can be kept: not where it has to stop before. */
bool await_record(struct play *play);

/* Has the record on the disk say that the motors move without lines, or along a way, before they do: from then on a
 * loss of power leaves that. False where the play has to stop before. */
bool await_mark(struct play *play);

/* They rest: the record doesn't say it any more. */
void end_mark(struct play *play);

/* Whether nobody can release a hold any more, as the console is gone: then the play has to stop. */
bool is_left_held(struct play *play);

/* Asks the play to come to rest and stop, and asked once more to stop at once; from a signal's handler. */
void stop_soon(void);

/* The same, but not at once, however often. */
void stop_at_rest(void);

#endif
