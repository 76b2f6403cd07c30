/* What the core sees of the chip by addresses: RAM and flash here, all else by the bus (bus.h). */
#ifndef MEMORY_H
#define MEMORY_H

#include <stdbool.h>
#include <stdint.h>

/* A load or store of 1, 2 or 4 bytes; one that isn't possible is a violation, and makes the instruction fail. */
uint32_t memory_load(uint32_t address, uint32_t width);
void memory_store(uint32_t address, uint32_t width, uint32_t value);

/* Called at each access but those of RAM and flash that load, where it isn't NULL: a check of the core looks at it. */
extern void (*memory_watch)(uint32_t address, uint32_t width, bool is_store, uint32_t value);

#endif
