/* The ROM, and the log that a firmware keeps in the flash by it. */
#ifndef ROM_H
#define ROM_H

#include <stdbool.h>
#include <stdint.h>

/* The ROM's bytes that a program may read. */
uint32_t rom_load(uint32_t address, uint32_t size);

/* Power goes off amid the change of the flash that is the n-th from now on; its bits are chance then. 0 for never. */
void rom_cut(uint32_t after);

/* The newest number of the log of boots in the flash's last two sectors (docs/SINK.md), 0 where there is none; makes it
 * that number alone. */
uint16_t log_newest(void);
void log_set(uint16_t number);

/* Bytes of a sector, and of the log. */
enum { LOG_SECTOR = 4096, LOG_BYTES = 2 * LOG_SECTOR };

#endif
