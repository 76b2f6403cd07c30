/* The watchdog, with its tick of microseconds, and TIMER, which counts it. */
#ifndef WATCHDOG_H
#define WATCHDOG_H

#include <stdbool.h>
#include <stdint.h>

/* It bites. */
void watchdog_bite(void);

/* As after a reset: where that is its own the scratch registers stay. */
void watchdog_reset(bool is_own);

uint32_t watchdog_load(uint32_t offset);
void watchdog_store(uint32_t offset, uint32_t value);
uint32_t timer_load(uint32_t offset);
void timer_store(uint32_t offset, uint32_t value);

/* Hz of the tick; the longest time between two that it was fed, in units. */
uint64_t watchdog_tick_hz(void);
extern uint64_t watchdog_hunger;

#endif
