/* What a sink made after the record of its last player. */
#ifndef SINK_CATCH_UP_H
#define SINK_CATCH_UP_H

#include "../../sink/wire.h"
#include "play.h"

/* Counts the lines of OUT that a sink made in its last session and the record doesn't count; says how many. False, with
 * nothing counted, where the session was of another OUT, or made something else too. */
bool sink_catch_up(struct play *play, const struct sink_answer *left);

#endif
