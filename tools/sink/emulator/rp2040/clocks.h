/* The crystal (XOSC), PLL_SYS, the clocks, and what holds peripherals in reset (RESETS, PSM). */
#ifndef CLOCKS_H
#define CLOCKS_H

#include <stdbool.h>
#include <stdint.h>

/* Hz of the clocks, 0 where one stands. */
uint64_t clocks_sys_hz(void);
uint64_t clocks_peri_hz(void);
uint64_t clocks_ref_hz(void);

/* Whether the peripheral at a base isn't held in reset. */
bool clocks_is_released(uint32_t base);

/* What the watchdog resets (PSM_WDSEL). */
uint32_t clocks_watched(void);

/* The ROM releases peripherals. */
void clocks_release(uint32_t bits);

/* The crystal has started; the PLL has locked. */
void clocks_crystal_starts(void);
void clocks_pll_locks(void);

/* As after a reset; the crystal goes on where that is the watchdog's, and PSM_WDSEL leaves it out. */
void clocks_reset(bool is_by_watchdog);

uint32_t clocks_load(uint32_t base, uint32_t offset);
void clocks_store(uint32_t base, uint32_t offset, uint32_t value);

#endif
