/* What the ports for chips of ST share (stm32.c), and what each of them has: a header with its registers, and a file
 * that begins its clocks, pins, line and timers. Registers are named as in ST's manuals. */
#ifndef STM32_H
#define STM32_H

#include <stdbool.h>
#include <stdint.h>

#define AT(address) (*(volatile uint32_t *)(address))
#define TIM2_CR1 AT(0x40000000)
#define TIM2_DIER AT(0x4000000c)
#define TIM2_SR AT(0x40000010)
#define TIM2_EGR AT(0x40000014)
#define TIM2_CNT AT(0x40000024)
#define TIM2_PSC AT(0x40000028)
#define TIM2_ARR AT(0x4000002c)
#define TIM2_CCR1 AT(0x40000034)
#define IWDG_KR AT(0x40003000)
#define IWDG_PR AT(0x40003004)
#define IWDG_RLR AT(0x40003008)
#define NVIC_ISER0 AT(0xe000e100)
#define SCB_VTOR AT(0xe000ed08)

/* Pins, by the number of their port times 16. */
enum {
    PA0, PA1, PA2, PA3, PA4, PA5, PA6, PA7, PA8, PA9, PA10, PA11, PA12, PA13, PA14, PA15,
    PB0, PB1, PB2, PB3, PB4, PB5, PB6, PB7, PB8, PB9, PB10, PB11, PB12, PB13, PB14, PB15,
    PC0, PC1, PC2, PC3, PC4, PC5, PC6, PC7, PC8, PC9, PC10, PC11, PC12, PC13, PC14, PC15
};

#ifdef STM32F411
#include "stm32f411.h"
#else
#include "stm32f103.h"
#endif

/* A board's pins: steps and directions of ports A and B, outputs, and eight inputs, from 0 on; INPUTS reads those,
 * where a board has a quicker way than pin by pin. */
#ifndef INPUTS
#define INPUTS_BY_PINS
#define INPUTS inputs_of_pins()
#endif

enum {
    RECEIVED = 1024,          /* bytes: 5 ms */
    SPINDLE_MOST_RPM = 24000, /* at the whole of the PWM */
    TIM2_INTERRUPT = 28,
    COMPARED = 2              /* the bit of TIM2's channel 1 in SR and DIER */
};

extern volatile uint8_t received[RECEIVED]; /* as the DMA writes it, round and round */

/* Begins all of the chip but the timer's interrupt; returns the number of this boot. */
uint16_t stm32_begin(void);

/* Sends bytes of the RAM by the DMA, which has sent the last ones. */
void stm32_send(const volatile uint8_t *bytes, uint32_t size);

/* Runs the program, with the stack's end that the linker placed; what each vector but these of a chip points to. */
extern uint32_t stack_top[];
void start(void);
void hang(void);
void timer_handler(void);

#endif
