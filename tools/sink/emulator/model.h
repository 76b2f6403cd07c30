/* What a user of the model calls, from C or by a shared library. Times are nanoseconds since power came on first. */
#ifndef MODEL_H
#define MODEL_H

#include <stdbool.h>
#include <stdint.h>

/* Reads an ELF into the flash, at its addresses of load, as a programmer writes it; false where it isn't one for this
 * chip. All is as if power had never been on. */
bool model_load(const char *elf);

/* Power comes on: the RAM has chance values; backup registers stay where there is a battery. */
void model_power_on(void);

/* Runs it for so long; false once a violation has stopped it, which told_violation tells. */
bool model_run(uint64_t ns);
uint64_t model_ns(void);

/* Turns the contact of an input, from 0 on, at a time that is still to come: 0 closed to ground, 1 open. They are given
 * in the order of their times. All contacts at once, now. */
enum { MODEL_INPUTS = 8 };
void model_turn_at(uint64_t ns, int input, int is_open);
void model_turn_inputs(uint32_t levels);

/* The pin that resets it is pulled low; power is off for so long. */
void model_reset(void);
void model_power_off(uint64_t ns);

/* Runs it on until no interrupt's handler works: what that has half done isn't to be looked at. */
void model_leave_handler(void);

/* The core takes a fault that has no other cause; outside of interrupts the program goes on at an address, as by an
 * error. */
void model_fault(void);
void model_go_astray(uint32_t address);

/* Where the ELF has a symbol, 0 for not; its size, where that isn't NULL. Memory of the chip. */
uint32_t model_symbol(const char *name, uint32_t *bytes);
void model_read(uint32_t address, void *to, uint32_t size);

/* A figure of the model, or UINT64_MAX: figures.c has their names. Sets something of the surroundings. */
uint64_t model_figure(const char *name);
bool model_set(const char *name, uint64_t value);

#endif
