/* The voltage of the core (PWR), and the RTC's backup registers, which PWR unlocks. */
#ifndef POWER_H
#define POWER_H

#include <stdint.h>

/* The scale of the core's voltage that is in force: 3 for scale 1, which bears 100 MHz, 2 and 1 for less. */
uint32_t power_scale(void);

uint32_t power_load(uint32_t offset);
void power_store(uint32_t offset, uint32_t value);
void power_reset(void);

uint32_t backup_load(uint32_t offset);
void backup_store(uint32_t offset, uint32_t value);

/* It has lost its power, and has no battery. */
void backup_clear(void);

/* The first backup register, as a test sets it. */
uint32_t backup_first(void);
void backup_set_first(uint32_t value);

#endif
