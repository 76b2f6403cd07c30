/* The pins: IO_BANK0, PADS_BANK0, and the GPIO of SIO. */
#ifndef PINS_H
#define PINS_H

#include <stdbool.h>
#include <stdint.h>

enum { PINS = 30, PIN_OF_UART = 2, PIN_OF_PWM = 4, PIN_OF_SIO = 5 };

/* What a contact at a pin does: 0 closed to ground, 1 open. */
void pins_turn(uint32_t pin, bool is_open);

/* Whether a pin is of a function, and drives; whether it is of one, and its level is seen. */
bool pins_drives(uint32_t pin, uint32_t function);
bool pins_sees(uint32_t pin, uint32_t function);

/* Notes the duty of a PWM at a pin, where it changed. */
void pins_note_duty(uint32_t pin, uint32_t duty);

/* As after a reset: of the banks alone, or of SIO too. Contacts stay. */
void pins_reset_banks(void);
void pins_reset(void);

uint32_t pins_load(uint32_t base, uint32_t offset);
void pins_store(uint32_t base, uint32_t offset, uint32_t value);

#endif
