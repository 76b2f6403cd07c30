/* What timers and the USART ask of the pins: in a chip's pins.c. */
#ifndef LINE_PINS_H
#define LINE_PINS_H

#include <stdbool.h>
#include <stdint.h>

#include "board.h"

/* Whether a pin is the line's push-pull output; its input, and not pulled down; a timer's output. */
bool pins_is_output_of_line(struct pin pin);
bool pins_is_input_of_line(struct pin pin);
bool pins_is_output_of_timer(struct pin pin);

/* Notes the duty of the PWM, where it changed. */
void pins_note_duty(uint32_t duty);

#endif
