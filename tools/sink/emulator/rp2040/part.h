/* An RP2040 on a board as a Raspberry Pi Pico is, by its datasheet, not by what any firmware expects of it: what of a
 * model differs from chip to chip. Each part has a file. What isn't modelled is a violation where a program uses it.
 *
 * Time is counted in units of which a cycle of 128 MHz has 45,045, and one of 12 MHz 480,480; other clocks are rounded
 * to whole units.
 *
 * Not modelled: the second core, which sleeps; SysTick; the PIO, USB, SPI, I2C, ADC, RTC; UART1, and the UART's
 * interrupts; TIMER's alarms; the other slices' edges at pins, phase-correct PWM and PWM by a pin; DMA of more than
 * bytes, its interrupts, and what it takes of the RAM's time; overrides of pins, their interrupts, drive strengths;
 * PLL_USB, the frequency counter, clocks' dividers, resuscitation; watchdogs that reset a part; the SSI's other modes,
 * and the flash's other commands; the ROM's USB boot and its other functions. The XIP cache is modelled, as are the
 * bridges of the buses. The crystal is exact, the ring oscillator has `lsi_hz`. All else that is analog isn't. */
#ifndef PART_H
#define PART_H

#include <stdint.h>

#define UNITS_A_US UINT64_C(5765760)
#define CORE_ID 0x410cc601u /* CPUID: r0p1 of a Cortex-M0+ */
#define CORE_V6M true
#define RUNS_RAM true
#define STARTS_TICKS 320000 /* in which a firmware surely answers: 40 ms */

#define UNICORN_CORE UC_CPU_ARM_CORTEX_M0
#define REGIONS {0, 0x4000}, {0x18000000, 0x1000}, {0x40000000, 0x10001000}, {0xd0000000, 0x1000}
#define ALIAS_AT 0x10000000u /* the flash is there alone */

enum { FLASH_AT = 0x10000000, FLASH_BYTES = 2 << 20, RAM_AT = 0x20000000, RAM_BYTES = 264 << 10 };
enum { PORTS = 1 /* bank 0 of the pins, which is port A here */ };
enum { IRQS = 26, IRQ_TIMER = 4 /* of the steps, which a slice of the PWM times */, PRIORITY_BITS = 0xc0,
       VECTORS_ALIGNED = 256 };
enum { HAS_DSP = 0, STACK_IS_ALIGNED = 1 };
enum { MULTIPLIES_LONG_CYCLES = 0, MULTIPLIES_ADDING_CYCLES = 0, ADDS_LONG_CYCLES = 0 }; /* it has none of these */

/* What happens at a time. */
enum { E_PWM, E_SENT, E_RECEIVED, E_DMA, E_WATCHDOG, E_CRYSTAL, E_PLL, E_CUT, E_HEARD, E_UNTIL, E_INPUTS, EVENTS };

#endif
