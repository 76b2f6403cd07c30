/* An STM32F411CE, by ST's RM0383, its data sheet and ARM's manual of the Cortex-M4, not by what any firmware expects of
 * it: what of a model differs from chip to chip. Each part has a file.
 *
 * Time is counted in units of which all clocks that are used are whole multiples: a cycle of 96 MHz has 30,030.
 *
 * Not modelled: the FPU, the M4's instructions of two halves at once but UXTAH and its like, sleep modes, the clock's
 * security system, the voltage detector, input capture, TIM1 and TIM5 on, FIFOs, bursts and double buffers
 * of the DMA, streams that aren't the line's, other USARTs, ADC, USB, SDIO, SPI, I2C, EXTI, the RTC's clock; the write
 * buffers of the buses (a store is waited for), what DMA takes of the RAM's time; levels, drive strengths, noise, and
 * all else that is analog. */
#ifndef PART_H
#define PART_H

#include <stdint.h>

#define UNITS_A_US UINT64_C(2882880)
#define CORE_ID 0x410fc241u /* CPUID: r0p1 of a Cortex-M4 */
#define UNICORN_CORE UC_CPU_ARM_CORTEX_M4
#define TIMER_MOST(which) ((which) == 0 ? 0xffffffffu : 0xffffu) /* the most that the counters of TIM2, 3, 4 come to */
#define ALIAS_AT 0u         /* where the flash is too */

enum { FLASH_AT = 0x08000000, FLASH_BYTES = 524288, RAM_AT = 0x20000000, RAM_BYTES = 131072 };
enum { PORTS = 3 /* A to C */, PERIPHERALS_BYTES = 0x30000 };
enum { IRQS = 86, IRQ_TIMER = 28 /* of the steps: where a stray pulse comes */ };
enum { PRIORITY_BITS = 0xf0, VECTORS_ALIGNED = 512 };
enum { HAS_DSP = 1, STACK_IS_ALIGNED = 1 };
enum { MULTIPLIES_LONG_CYCLES = 0, MULTIPLIES_ADDING_CYCLES = 0, ADDS_LONG_CYCLES = 0 };

/* What happens at a time. */
enum { E_TIM2, E_TIM3, E_TIM4, E_SENT, E_RECEIVED, E_DMA_OUT, E_DMA_IN, E_WATCHDOG, E_CRYSTAL, E_PLL, E_HEARD, E_UNTIL,
       E_INPUTS, EVENTS };

#endif
