/* The independent watchdog (IWDG), by its own oscillator. */
#ifndef WATCHDOG_H
#define WATCHDOG_H

#include <stdint.h>

uint32_t watchdog_load(uint32_t offset);
void watchdog_store(uint32_t offset, uint32_t value);
void watchdog_reset(void);

/* The longest time between two that it was fed, in units. */
extern uint64_t watchdog_hunger;

#endif
