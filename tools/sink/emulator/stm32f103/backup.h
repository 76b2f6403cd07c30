/* The backup registers (BKP), which PWR unlocks. */
#ifndef BACKUP_H
#define BACKUP_H

#include <stdint.h>

uint32_t backup_load(uint32_t offset);
void backup_store(uint32_t offset, uint32_t value);
uint32_t backup_load_power(uint32_t offset);
void backup_store_power(uint32_t offset, uint32_t value);

/* The chip starts again; it has lost its power, and has no battery. */
void backup_reset(void);
void backup_clear(void);

/* The first backup register, as a test sets it. */
uint16_t backup_first(void);
void backup_set_first(uint16_t value);

#endif
