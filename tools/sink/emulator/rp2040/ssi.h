/* The SSI, by which the flash is read as memory, and the cache before it. */
#ifndef SSI_H
#define SSI_H

#include <stdbool.h>
#include <stdint.h>

uint32_t ssi_load(uint32_t offset);
void ssi_store(uint32_t offset, uint32_t value);

/* Whether the flash is memory now. */
bool ssi_is_memory(void);

/* What the ROM's functions do: the flash's pins are its; the flash takes commands, and isn't memory; the cache forgets
 * all; the flash is memory again, in the ROM's way. */
void ssi_connect(void);
void ssi_leave_memory(void);
void ssi_flush(void);
void ssi_enter_memory(void);

/* As the ROM leaves it before the boot block begins. */
void ssi_reset(void);

#endif
