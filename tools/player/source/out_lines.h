/* OUT's lines, carried out one after the other. */
#ifndef OUT_LINES_H
#define OUT_LINES_H

#include "play.h"

/* Makes ready for them, at rest. */
void out_lines_begin(struct play *play);

/* Carries them out until OUT ends, or the play has to stop. */
enum end carry_out_lines(struct play *play);

#endif
