/* Interrupts (PM0056): lines of peripherals, what is pending, enabled and active; and the registers of the core. */
#ifndef NVIC_H
#define NVIC_H

#include <stdbool.h>
#include <stdint.h>

/* The number of the exception that is due, 0 for none; tells that it was entered, or left. */
uint32_t nvic_due(void);
void nvic_entered(uint32_t number);
void nvic_left(uint32_t number);

/* Where the vectors are (VTOR). */
uint32_t nvic_vectors(void);

/* The level of an interrupt's line. A rising one is kept, also while the handler works. */
void nvic_line(int irq, bool level);

/* Makes an interrupt pending, as by a stray pulse on its line. */
void nvic_pend(int irq);

void nvic_reset(void);

/* The registers of the core, at e000e000. */
bool nvic_load(uint32_t address, uint32_t *value);
bool nvic_store(uint32_t address, uint32_t size, uint32_t value);

/* How long interrupts waited and their handlers lasted at most; how often one was entered, and without its line. */
struct nvic_figures {
    uint64_t latency;
    uint64_t handler;
    uint64_t entries;
    uint64_t spurious;
};
extern struct nvic_figures nvic_figures;

#endif
