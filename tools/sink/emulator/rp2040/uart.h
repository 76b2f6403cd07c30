/* UART0, a PL011, at pins 0 and 1. */
#ifndef UART_H
#define UART_H

#include <stdbool.h>
#include <stdint.h>

/* Whether it asks the DMA: to send, or to take what it received. */
bool uart_asks(bool to_send);

/* The shift register is free; a byte has come. */
void uart_shift(void);
void uart_receive(void);

/* Looks whether it receives, after its registers, its pin or its clock changed. */
void uart_receives(void);

void uart_reset(void);
uint32_t uart_load(uint32_t offset);
void uart_store(uint32_t offset, uint32_t value);

/* Bauds; bytes that came while there was no room, or without a stop bit. */
uint64_t uart_baud(void);
struct uart_figures {
    uint64_t overruns;
    uint64_t framing;
};
extern struct uart_figures uart_figures;

#endif
