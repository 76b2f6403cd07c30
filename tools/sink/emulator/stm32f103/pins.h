/* Ports A and B (GPIO), and AFIO. */
#ifndef PINS_H
#define PINS_H

#include <stdbool.h>
#include <stdint.h>

#include "line_pins.h"

enum { PORT_A, PORT_B };

/* What a contact at a pin does: 0 closed to ground, 1 open. */
void pins_turn(int port, int pin, bool is_open);


/* All pins float; contacts stay. */
void pins_reset(void);

uint32_t pins_load(int port, uint32_t offset);
void pins_store(int port, uint32_t offset, uint32_t value);
uint32_t pins_load_functions(uint32_t offset);
void pins_store_functions(uint32_t offset, uint32_t value);

#endif
