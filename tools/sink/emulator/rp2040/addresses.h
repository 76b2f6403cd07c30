/* Where the peripherals are (datasheet, "Address map"). Those of the APB have 16 KB each, and those of the AHB too, of
 * which bits 12 and 13 say how a store changes a register: to the value, by its ones, sets them, clears them. */
#ifndef ADDRESSES_H
#define ADDRESSES_H

#define AT_ROM 0x00000000u
#define AT_XIP_CTRL 0x14000000u
#define AT_SSI 0x18000000u
#define AT_CLOCKS 0x40008000u
#define AT_RESETS 0x4000c000u
#define AT_PSM 0x40010000u
#define AT_IO_BANK0 0x40014000u
#define AT_PADS_BANK0 0x4001c000u
#define AT_XOSC 0x40024000u
#define AT_PLL_SYS 0x40028000u
#define AT_UART0 0x40034000u
#define AT_PWM 0x40050000u
#define AT_TIMER 0x40054000u
#define AT_WATCHDOG 0x40058000u
#define AT_DMA 0x50000000u
#define AT_SIO 0xd0000000u
#define AT_CORE 0xe0000000u

enum { ROM_BYTES = 0x4000 };

/* The bits of RESETS. */
enum { IN_RESET_DMA = 2, IN_RESET_IO_BANK0 = 5, IN_RESET_IO_QSPI = 6, IN_RESET_PADS_BANK0 = 8,
       IN_RESET_PADS_QSPI = 9, IN_RESET_PLL_SYS = 12, IN_RESET_PWM = 14, IN_RESET_TIMER = 21, IN_RESET_UART0 = 22,
       IN_RESET_ALL = 0x01ffffff };

#endif
