/* A Cortex-M3: the instructions of ARMv7-M, exceptions, and how long they take.
 *
 * Cycles are those of its reference manual (r1p1): 1 for most, 2 for a load, 1 for a store, 1 + N for N registers, a
 * branch that is taken 1 + `branch_cycles`, a division 2 to 12, an exception's entry 12 and its return 10. The flash
 * adds what it has to be waited for (flash.c of the chip), and so do the buses (bus.c).
 *
 * Not modelled: coprocessors, exclusive loads and stores, special registers but PRIMASK, sleep, the process stack,
 * bit-banding, SysTick: what a program uses of these is a violation. Nor loads in a pipeline (so loads are a little
 * slow here), and DMA that holds the RAM. */
#ifndef CORE_H
#define CORE_H

#include <stdbool.h>
#include <stdint.h>

enum { CORE_NMI = 2, CORE_HARDFAULT = 3, CORE_USAGEFAULT = 6, CORE_IRQ0 = 16 };

struct core {
    uint32_t r[16];      /* r[15] is the address of the instruction that comes next; within one, of that plus 4 */
    uint32_t at;         /* the address of this instruction .. */
    uint32_t next;       /* .. and of the one after it */
    uint32_t n, z, c, v, q;
    uint32_t it;         /* ITSTATE .. */
    uint32_t it_was;     /* .. and what it was before this instruction */
    uint32_t exception;  /* that is active, 0 for none */
    uint32_t masks;      /* PRIMASK */
    bool is_faulty;      /* this instruction's access failed */
    bool aligns_stack;   /* CCR.STKALIGN: 0 after a reset of r1p1 */
    uint64_t count;      /* instructions */
    uint32_t least_sp;   /* ever */
    uint32_t branch_cycles;
};

extern struct core core;

/* Begins at the vectors. */
void core_reset(void);

/* Runs until `chip.next_event`, or one instruction. */
void core_run(void);
void core_one(void);

/* Enters an exception; returns from the one that is active, with what stood in the program counter. */
void core_enter(uint32_t number);
void core_leave(uint32_t how);

/* The program status registers as one; sets them. */
uint32_t core_status(void);
void core_set_status(uint32_t value);

/* Lets cycles go by. */
void core_pass(uint32_t cycles);

/* This instruction fails: a fault is entered. */
void core_fail(void);

/* Notes where the stack pointer is, and that its low bits are 0. */
void core_note_stack(void);

#endif
