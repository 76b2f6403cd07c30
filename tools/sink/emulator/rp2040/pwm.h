/* The PWM: eight slices, each a counter with two compares, at pins by twos. */
#ifndef PWM_H
#define PWM_H

#include <stdint.h>

/* What a slice was to come to has come. */
void pwm_happen(void);

/* Lets all counters go on to now, before their clock changes; which has changed. */
void pwm_go_on(void);
void pwm_clock_changed(void);

/* Tells the duties of the pins, where they changed. */
void pwm_note_duties(void);

void pwm_reset(void);
uint32_t pwm_load(uint32_t offset);
void pwm_store(uint32_t offset, uint32_t value);

/* Hz of a slice's ticks, and of its turns. */
uint64_t pwm_tick_hz(uint32_t slice);
uint64_t pwm_turn_hz(uint32_t slice);

#endif
