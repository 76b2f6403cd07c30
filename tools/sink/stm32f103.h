/* An STM32F103C8 at 72 MHz: what stm32.c needs of it (RM0008), and the pins of a board that names none of its own. */
#ifndef STM32F103_H
#define STM32F103_H

/* Ports: pins as they are; set by the low half of BSRR, cleared by its high half. */
#define A_IDR AT(0x40010808)
#define A_BSRR AT(0x40010810)
#define B_IDR AT(0x40010c08)
#define B_BSRR AT(0x40010c10)
#define C_IDR AT(0x40011008)
#define C_BSRR AT(0x40011010)
#define TIM4_CR1 AT(0x40000800)
#define TIM4_CCMR1 AT(0x40000818)
#define TIM4_CCER AT(0x40000820)
#define TIM4_ARR AT(0x4000082c)
#define TIM4_CCR1 AT(0x40000834)
#define DMA_CCR4 AT(0x40020044) /* channel 4 sends .. */
#define DMA_CNDTR4 AT(0x40020048)
#define DMA_CPAR4 AT(0x4002004c)
#define DMA_CMAR4 AT(0x40020050)
#define DMA_CCR5 AT(0x40020058) /* .. and channel 5 receives */
#define DMA_CNDTR5 AT(0x4002005c)
#define DMA_CPAR5 AT(0x40020060)
#define DMA_CMAR5 AT(0x40020064)

#define SEND_LEFT DMA_CNDTR4 /* bytes that the DMA hasn't sent, or has room for up to the end of `received` */
#define RECEIVED_LEFT DMA_CNDTR5
#define PWM_DUTY TIM4_CCR1

typedef uint16_t timer_ticks; /* of TIM2's counter, which has 16 bits */

enum {
    HALF_TURN = 0x8000,
    TICK_DIVISOR = 9,     /* 72 MHz / 9 = 8 MHz */
    PWM_STEPS = 7200,     /* 10 kHz */
    WATCHDOG_TURNS = 1000 /* 100 ms at 10 kHz, a quarter of the oscillator */
};

#ifndef X_STEP
#define X_STEP PA0
#define Y_STEP PA2
#define Z_STEP PA4
#define X_DIRECTION PA1
#define Y_DIRECTION PA3
#define Z_DIRECTION PA5
#define CLOCKWISE PB0
#define COUNTER PB1
#define MIST PB5
#define FLOOD PB7
#define INPUT_PINS PB8, PB9, PB10, PB11, PB12, PB13, PB14, PB15
#define INPUTS (B_IDR >> 8 & 0xff)
#endif

#endif
