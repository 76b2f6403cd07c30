/* The USART of the line (line.h). */
#ifndef USART_H
#define USART_H

#include <stdbool.h>
#include <stdint.h>

/* Whether it asks a way of the DMA. */
bool usart_requests(int way);

/* The shift register is free; a byte has come. */
void usart_shift(void);
void usart_receive(void);

/* Looks whether it receives, after its registers or its pin changed. */
void usart_receives(void);

void usart_reset(void);
uint32_t usart_load(uint32_t offset);
void usart_store(uint32_t offset, uint32_t value);

/* Bauds; bytes that came before the last one was read, or without a stop bit. */
uint64_t usart_baud(void);
struct usart_figures {
    uint64_t overruns;
    uint64_t framing;
};
extern struct usart_figures usart_figures;

#endif
