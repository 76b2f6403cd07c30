/* The DMA of the line: a channel or stream for each way. */
#ifndef DMA_H
#define DMA_H

#include <stdint.h>

enum { DMA_OUT, DMA_IN, DMA_WAYS };

/* Looks whether a way is asked for; a byte is moved some cycles later. */
void dma_look(int way);
void dma_move(int way);

void dma_reset(void);

#endif
