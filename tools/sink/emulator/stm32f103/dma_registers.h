#ifndef DMA_REGISTERS_H
#define DMA_REGISTERS_H

#include <stdint.h>

uint32_t dma_load(uint32_t offset);
void dma_store(uint32_t offset, uint32_t value);

#endif
