/* An STM32F103C8, by ST's RM0008 and PM0056, not by what any firmware expects of it: what of a model differs from chip
 * to chip. Each part has a file.
 *
 * Time is counted in units of which all clocks of this chip are whole multiples: a cycle of 72 MHz has 40,040.
 *
 * Not modelled: sleep modes, the clock's security system, the voltage detector, input capture, other channels of the
 * DMA and other USARTs, ADC, USB, CAN, SPI, I2C; the write buffers of the buses (a store is waited for), what DMA takes
 * of the RAM's time; levels, drive strengths, noise, and all else that is analog. */
#ifndef PART_H
#define PART_H

#include <stdint.h>

#define UNITS_A_US UINT64_C(2882880)
#define CORE_ID 0x411fc231u /* CPUID: r1p1 of a Cortex-M3 */

#define UNICORN_CORE UC_CPU_ARM_CORTEX_M3
#define TIMER_MOST(which) ((void)(which), 0xffffu) /* the most that the counters of TIM2, 3 and 4 come to */
#define ALIAS_AT 0u /* where the flash is too */

enum { FLASH_AT = 0x08000000, FLASH_BYTES = 65536, RAM_AT = 0x20000000, RAM_BYTES = 20480 };
enum { PORTS = 2 /* A and B */, PERIPHERALS_BYTES = 0x30000 };
enum { IRQS = 43, IRQ_TIMER = 28 /* of the steps: where a stray pulse comes */ };
enum { PRIORITY_BITS = 0xf0, VECTORS_ALIGNED = 256 };
enum { HAS_DSP = 0, STACK_IS_ALIGNED = 0 };
enum { MULTIPLIES_LONG_CYCLES = 4, MULTIPLIES_ADDING_CYCLES = 1, ADDS_LONG_CYCLES = 6 };

/* What happens at a time. */
enum { E_TIM2, E_TIM3, E_TIM4, E_SENT, E_RECEIVED, E_DMA_OUT, E_DMA_IN, E_WATCHDOG, E_CRYSTAL, E_PLL, E_HEARD, E_UNTIL,
       E_INPUTS, EVENTS };

#endif
