/* Whoever stands at the player's terminal. */
#ifndef PERSON_H
#define PERSON_H

#include <stdbool.h>

/* Takes no notice of what was typed before. */
void person_forget(void);

enum answer { NO_ANSWER, YES, ANOTHER };

/* What is answered, up to Enter, in so many milliseconds; ANOTHER too where nobody can answer any more. */
enum answer person_answers(int milliseconds);

/* Whether Enter is pressed in so many milliseconds. */
bool person_has_pressed(int milliseconds);

/* Whether nobody can press it any more: standard input is at its end. */
bool person_is_gone(void);

#endif
