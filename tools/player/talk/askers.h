/* Those who asked how far a player is: of a file that is followed they alone can be looked for. */
#ifndef ASKERS_H
#define ASKERS_H

#include <stdbool.h>
#include <sys/socket.h>
#include <sys/un.h>

/* Notes one, if it has a name. */
void askers_note(const struct sockaddr_un *name, socklen_t named);

/* Whether none of them is there any more. */
bool askers_are_gone(void);

#endif
