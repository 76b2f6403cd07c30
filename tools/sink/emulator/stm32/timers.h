/* TIM2, TIM3 and TIM4, as counters with compares; a channel of one of them makes the PWM (line.h). */
#ifndef TIMERS_H
#define TIMERS_H

#include <stdint.h>

enum { TIMERS = 3 };

/* What a timer was to come to has come. */
void timers_happen(int which);

/* Lets all counters go on to now, before their clock changes. */
void timers_go_on(void);

/* Tells the duty of the PWM, where it changed. */
void timers_note_duty(void);

void timers_reset(void);
uint32_t timers_load(int which, uint32_t offset);
void timers_store(int which, uint32_t offset, uint32_t value);

/* Hz of a counter's ticks; of the PWM. */
uint64_t timers_tick_hz(int which);
uint64_t timers_pwm_hz(void);

#endif
