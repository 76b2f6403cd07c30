/* Pins without inputs. A builder whose machine has inputs replaces this file, beside pins.c. */
#include <errno.h>

#include "pins.h"

int pins_inputs(uint32_t *levels) {
    *levels = 0;
    return ENOTSUP;
}
