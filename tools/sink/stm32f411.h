/* An STM32F411 at 96 MHz: what stm32.c needs of it (RM0383), and the pins of its boards. */
#ifndef STM32F411_H
#define STM32F411_H

/* Ports: pins as they are; set by the low half of BSRR, cleared by its high half. */
#define A_IDR AT(0x40020010)
#define A_BSRR AT(0x40020018)
#define B_IDR AT(0x40020410)
#define B_BSRR AT(0x40020418)
#define C_IDR AT(0x40020810)
#define C_BSRR AT(0x40020818)

typedef uint32_t timer_ticks; /* of TIM2's counter, which has 32 bits */

#define HALF_TURN 0x80000000u

enum {
    TICK_DIVISOR = 12,   /* 96 MHz / 12 = 8 MHz */
    PWM_STEPS = 9600,    /* 10 kHz */
    WATCHDOG_TURNS = 800 /* 100 ms at 8 kHz, a quarter of the oscillator */
};

#ifdef NUCLEO /* a Nucleo-64 with a CNC shield, whose line is that of its ST-LINK */
#define LINE_USART 0x40004400u /* USART2 .. */
#define LINE_FUNCTION 7u
#define LINE_OUT PA2
#define LINE_IN PA3
#define LINE_DIVISOR 24u       /* 48 MHz / 24 = 2,000,000 baud */
#define LINE_DMA 0x40026000u   /* .. which DMA1 serves: by stream 6 out .. */
#define OUT_STREAM 6
#define IN_STREAM 5            /* .. and stream 5 in, both by channel 4 */
#define PWM_TIMER 0x40000400u  /* TIM3, channel 2 */
#define PWM_CHANNEL 2
#define PWM_PIN PA7
#define X_STEP PA10
#define Y_STEP PB3
#define Z_STEP PB5
#define X_DIRECTION PB4
#define Y_DIRECTION PB10
#define Z_DIRECTION PA8
#define CLOCKWISE PC1
#define COUNTER PC0
#define MIST PA5
#define FLOOD PB0
#define INPUT_PINS PC7, PB6, PA6, PA0, PA1, PA4, PC13, PB7
#else /* a black pill */
#define LINE_USART 0x40011000u /* USART1, by DMA2: stream 7 out, stream 2 in, channel 4 */
#define LINE_FUNCTION 7u
#define LINE_OUT PA9
#define LINE_IN PA10
#define LINE_DIVISOR 48u       /* 96 MHz / 48 = 2,000,000 baud */
#define LINE_DMA 0x40026400u
#define OUT_STREAM 7
#define IN_STREAM 2
#define PWM_TIMER 0x40000800u  /* TIM4, channel 1 */
#define PWM_CHANNEL 1
#define PWM_PIN PB6
#define X_STEP PA1
#define Y_STEP PA2
#define Z_STEP PA3
#define X_DIRECTION PA4
#define Y_DIRECTION PA5
#define Z_DIRECTION PA6
#define CLOCKWISE PB0
#define COUNTER PB1
#define MIST PB5
#define FLOOD PB7
#define INPUT_PINS PB8, PB9, PB10, PA8, PB12, PB13, PB14, PB15
#endif

#define STREAM(number) (LINE_DMA + 0x10 + 0x18 * (number))
#define SEND_LEFT AT(STREAM(OUT_STREAM) + 4) /* bytes that the DMA hasn't sent, or has room for in `received` */
#define RECEIVED_LEFT AT(STREAM(IN_STREAM) + 4)
#define PWM_DUTY AT(PWM_TIMER + 0x30 + 4 * PWM_CHANNEL)

#endif
