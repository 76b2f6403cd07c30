/* What drives the motors. A machine has a pins.c of its own, and an input_pins.c where it has inputs; those of this
 * folder drive nothing, and have none. */
#ifndef PINS_H
#define PINS_H

#include <stdbool.h>
#include <stddef.h>
#include <stdint.h>

#include "cause.h"
#include "line.h"

/* Called once, before all else: makes the pins ready, with all outputs off. `path` is that of --pins, or NULL; `others`
 * are the player's other files, NULL at the end. Returns false, with the cause. */
bool pins_begin(const char *path, const char *const *others, struct cause *why);

/* Carries out a line, now: `line` is what it says, `text` the line with its newline, of `size` bytes.
 * P: sets directions, and makes one step of each axis that moves.
 * S: sets the outputs, and returns once the spindle has its speed. A person has put the tool in before; with
 *    --no-ask-tool it changes the tool itself, and returns once that is done.
 * D: nothing; the player waits.
 * Returns 0, or the number of an error (errno.h), at which the player stops. It may take as long as it needs: the
 * player answers meanwhile, in another thread. */
int pins_set(const struct line *line, const char *text, size_t size);

/* Sets the spindle's speed to that of `outputs`, now, as somebody overrides it; all else is as it was set last. It is
 * called between two pulses too, and doesn't wait for the spindle. Returns 0 or an error. */
int pins_speed(const struct outputs *outputs);

/* Turns spindle and coolant off, now. Called before every exit at which they may be on. Returns 0 or an error. */
int pins_off(void);

/* The inputs as their pins are, in input_pins.c: bit n is 1 while the pin of input n is high. It is called before each
 * pulse, and doesn't wait. Returns 0, or the number of an error, at which the player stops; ENOTSUP where the pins have
 * no inputs. */
int pins_inputs(uint32_t *levels);

#endif
