/* The DMA: twelve channels, which move bytes as UART0 asks. */
#ifndef DMA_H
#define DMA_H

#include <stdint.h>

/* Looks whether a channel is asked; one moves a byte some cycles later. */
void dma_look(void);
void dma_move(void);

void dma_reset(void);
uint32_t dma_load(uint32_t offset);
void dma_store(uint32_t offset, uint32_t value);

/* Sets how many transfers a channel has left, as if the others had been made: 2^32 of them take hours. */
void dma_set_left(uint32_t channel, uint32_t count);

#endif
