/* Which version of the player this is. */
#ifndef VERSION_H
#define VERSION_H

#include <stdbool.h>

/* Whether these words, the program's own the first of them, ask for the version alone. */
bool version_is_asked(int count, char **given);

/* Prints it: the lines of the file whose path was BUILD as the player was compiled, or that it was built from a
 * checkout. Returns the exit status: 2 where they can't be read or printed, and says why. */
int version_tell(void);

#endif
