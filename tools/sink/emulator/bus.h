/* What is beside RAM and flash: the peripherals, and the registers of the core. */
#ifndef BUS_H
#define BUS_H

#include <stdbool.h>
#include <stdint.h>

/* A load or store of 1, 2 or 4 bytes; false where the bus fails, as nothing is there. */
bool bus_load(uint32_t address, uint32_t size, uint32_t *value);
bool bus_store(uint32_t address, uint32_t size, uint32_t value);

#endif
