/* The registers of DMA1 (0) and DMA2 (1). */
#ifndef STREAMS_H
#define STREAMS_H

#include <stdint.h>

uint32_t dma_load(int which, uint32_t offset);
void dma_store(int which, uint32_t offset, uint32_t value);

#endif
