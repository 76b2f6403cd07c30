/* Registers of an RP2040, with their names and addresses in its datasheet. */
#ifndef RP2040_H
#define RP2040_H

#include <stdint.h>

#define AT(address) (*(volatile uint32_t *)(address))
#define PSM_WDSEL AT(0x40010008)
#define RESETS_CLEAR AT(0x4000f000) /* RESETS_RESET, whose bits are cleared by ones here */
#define RESETS_DONE AT(0x4000c008)
#define XOSC_CTRL AT(0x40024000)
#define XOSC_STATUS AT(0x40024004)
#define XOSC_STARTUP AT(0x4002400c)
#define CLK_REF_CTRL AT(0x40008030)
#define CLK_REF_SELECTED AT(0x40008038)
#define CLK_SYS_CTRL AT(0x4000803c)
#define CLK_SYS_SELECTED AT(0x40008044)
#define CLK_PERI_CTRL AT(0x40008048)
#define PLL_CS AT(0x40028000)
#define PLL_PWR AT(0x40028004)
#define PLL_FBDIV_INT AT(0x40028008)
#define PLL_PRIM AT(0x4002800c)
#define IO_CTRL(pin) AT(0x40014004 + 8 * (pin))
#define PADS(pin) AT(0x4001c004 + 4 * (pin))
#define SIO_IN AT(0xd0000004)
#define SIO_OUT AT(0xd0000010)
#define SIO_OUT_SET AT(0xd0000014)
#define SIO_OUT_CLEAR AT(0xd0000018)
#define SIO_OE_SET AT(0xd0000024)
#define PWM_CSR(slice) AT(0x40050000 + 0x14 * (slice))
#define PWM_DIV(slice) AT(0x40050004 + 0x14 * (slice))
#define PWM_CTR(slice) AT(0x40050008 + 0x14 * (slice))
#define PWM_CC(slice) AT(0x4005000c + 0x14 * (slice))
#define PWM_TOP(slice) AT(0x40050010 + 0x14 * (slice))
#define PWM_EN AT(0x400500a0)
#define PWM_INTR AT(0x400500a4)
#define PWM_INTE AT(0x400500a8)
#define TIMER_RAWL AT(0x40054028) /* microseconds */
#define UART0_DR 0x40034000u
#define UART0_IBRD AT(0x40034024)
#define UART0_FBRD AT(0x40034028)
#define UART0_LCR_H AT(0x4003402c)
#define UART0_CR AT(0x40034030)
#define UART0_DMACR AT(0x40034048)
#define DMA_READ(channel) AT(0x50000000 + 0x40 * (channel))
#define DMA_WRITE(channel) AT(0x50000004 + 0x40 * (channel))
#define DMA_COUNT(channel) AT(0x50000008 + 0x40 * (channel))
#define DMA_CTRL(channel) AT(0x5000000c + 0x40 * (channel))    /* a store begins */
#define DMA_AGAIN(channel) AT(0x5000001c + 0x40 * (channel))   /* the count; a store begins */
#define WATCHDOG_CTRL AT(0x40058000)
#define WATCHDOG_LOAD AT(0x40058004)
#define WATCHDOG_TICK AT(0x4005802c)
#define SSI_CTRLR0 AT(0x18000000)
#define SSI_CTRLR1 AT(0x18000004)
#define SSI_SSIENR AT(0x18000008)
#define SSI_BAUDR AT(0x18000014)
#define SSI_SPI_CTRLR0 AT(0x180000f4)
#define NVIC_ISER AT(0xe000e100)
#define VTOR AT(0xe000ed08)

#endif
