/* The clocks (RCC), and the flash's wait states. */
#ifndef CLOCKS_H
#define CLOCKS_H

#include <stdbool.h>
#include <stdint.h>

enum bus { BUS_AHB, BUS_APB1, BUS_APB2, BUSES };

uint64_t clocks_hclk_hz(void);
uint64_t clocks_bus_hz(enum bus bus);
uint64_t clocks_timer_hz(void);

/* Units of a cycle of the timers' clock; that an access of a bus takes, beyond the instruction's first cycle. */
uint64_t clocks_timer_units(void);
uint64_t clocks_access_units(enum bus bus);

/* Whether the peripheral at an address has its clock; and has had it for as long as it takes to be there. */
bool clocks_has(uint32_t address);
bool clocks_is_there(uint32_t address);

bool clocks_pll_is_on(void);

/* The crystal has started; the PLL has locked. */
void clocks_crystal_starts(void);
void clocks_pll_locks(void);

/* As after a reset, for bits of CSR that say why; as after a loss of power. */
void clocks_reset(uint32_t why);
void clocks_power_on(void);

uint32_t clocks_load(uint32_t offset);
void clocks_store(uint32_t offset, uint32_t value);
uint32_t clocks_load_flash(uint32_t offset);
void clocks_store_flash(uint32_t offset, uint32_t value);

#endif
