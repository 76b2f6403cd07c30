/* How long the flash takes: in a chip's flash.c, as its buffers are. */
#ifndef FLASH_H
#define FLASH_H

#include <stdint.h>

/* Waits for an instruction at an address; for a load of what is at an offset in the flash. */
void flash_fetch(uint32_t at, uint32_t size);
void flash_pass_load(uint32_t offset);

/* What its register ACR has from now on. */
void flash_set(uint32_t acr);

/* The core goes on elsewhere; all buffers are empty, as after a reset. */
void flash_leave(void);
void flash_reset(void);

#endif
