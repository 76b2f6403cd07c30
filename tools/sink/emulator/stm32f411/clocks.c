#include "clocks.h"

#include <inttypes.h>
#include <string.h>

#include "addresses.h"
#include "chip.h"
#include "flash.h"
#include "power.h"
#include "timers.h"
#include "told.h"

enum { HSI_HZ = 16000000, MOST_HZ = 100000000, MOST_APB1_HZ = 50000000, MOST_SCALE_2_HZ = 84000000,
       MOST_SCALE_3_HZ = 64000000, PLL_LOCKS_US = 300 };
enum { LEAST_IN_HZ = 950000, MOST_IN_HZ = 2100000, LEAST_VCO_HZ = 100000000, MOST_VCO_HZ = 432000000 };
enum { HSEON = 1 << 16, HSERDY = 1 << 17, HSEBYP = 1 << 18, PLLON = 1 << 24, PLLRDY = 1 << 25 };
enum { PLLSRC = 1 << 22, PLLCFGR_RESET = 0x24003010, PLLCFGR_FIXED = 0x20000000, PLLCFGR_RESERVED = 0xd0bc8000u };
enum { ENABLES = 3, AHB1, APB1 = 1, APB2 = 2 };

static struct {
    uint32_t cr, pllcfgr, cfgr, csr;
    uint32_t enables[ENABLES];
    uint64_t enabled_at[ENABLES];
    uint32_t came[ENABLES]; /* bits that were set then */
} rcc;
static uint32_t flash_acr;
static uint64_t access_units[BUSES];
static uint64_t timer_units;

static uint64_t pll_in_hz(void) {
    uint32_t by = rcc.pllcfgr & 63;
    uint64_t source = (rcc.pllcfgr & PLLSRC) != 0 ? around.hse_hz : HSI_HZ;
    return by < 2 ? 0 : source / by;
}

static uint64_t vco_hz(void) {
    return pll_in_hz() * (rcc.pllcfgr >> 6 & 511);
}

static uint64_t system_hz(void) {
    switch (rcc.cfgr >> 2 & 3) {
    case 0: return HSI_HZ;
    case 1: return around.hse_hz;
    default: return vco_hz() / (2 * ((rcc.pllcfgr >> 16 & 3) + 1));
    }
}

uint64_t clocks_hclk_hz(void) {
    static const uint32_t by[8] = {2, 4, 8, 16, 64, 128, 256, 512};
    uint32_t bits = rcc.cfgr >> 4 & 15;
    return system_hz() / (bits < 8 ? 1 : by[bits - 8]);
}

static uint32_t bits_of(enum bus bus) {
    return rcc.cfgr >> (bus == BUS_APB1 ? 10 : 13) & 7;
}

uint64_t clocks_bus_hz(enum bus bus) {
    bool is_divided = bus != BUS_AHB && bits_of(bus) >= 4;
    return clocks_hclk_hz() / (is_divided ? 2u << (bits_of(bus) - 4) : 1);
}

uint64_t clocks_timer_hz(void) {
    return (bits_of(BUS_APB1) < 4 ? 1 : 2) * clocks_bus_hz(BUS_APB1);
}

uint64_t clocks_timer_units(void) {
    return timer_units;
}

uint64_t clocks_access_units(enum bus bus) {
    return access_units[bus];
}

bool clocks_pll_is_on(void) {
    return (rcc.cr & PLLON) != 0;
}

/* Wait states that the flash needs at 2.7 to 3.6 V. */
static uint32_t waits_at(uint64_t hz) {
    return hz <= 30000000 ? 0 : hz <= 64000000 ? 1 : hz <= 90000000 ? 2 : 3;
}

/* Checks what RM0383 allows. */
static void check(uint64_t hz) {
    uint64_t most = power_scale() == 3 ? MOST_HZ : power_scale() == 2 ? MOST_SCALE_2_HZ : MOST_SCALE_3_HZ;
    if (UNITS_A_SECOND % clocks_hclk_hz() != 0) {
        violation("a clock of %" PRIu64 " Hz isn't modelled", clocks_hclk_hz());
    }
    if (hz > most) {
        violation("a clock of %" PRIu64 " Hz: more than %" PRIu64 " at this voltage of the core", hz, most);
    }
    if ((flash_acr & 15) < waits_at(clocks_hclk_hz())) {
        violation("%u wait states of the flash at %" PRIu64 " Hz, which needs %u", (unsigned)(flash_acr & 15), hz,
                  (unsigned)waits_at(clocks_hclk_hz()));
    }
    if (clocks_bus_hz(BUS_APB1) > MOST_APB1_HZ) {
        violation("APB1 has %" PRIu64 " Hz: more than 50 MHz", clocks_bus_hz(BUS_APB1));
    }
}

/* What follows from clocks that were changed. */
static void set_clocks(void) {
    uint64_t hz = system_hz();
    if (hz == 0) {
        violation("no clock");
        return;
    }
    chip.cycle = UNITS_A_SECOND / clocks_hclk_hz();
    flash_set(flash_acr);
    access_units[BUS_AHB] = 2 * chip.cycle;
    for (int bus = BUS_APB1; bus <= BUS_APB2; bus++) {
        access_units[bus] = (1 + 2 * clocks_hclk_hz() / clocks_bus_hz((enum bus)bus)) * chip.cycle;
    }
    timer_units = UNITS_A_SECOND / clocks_timer_hz();
    check(hz);
}

/* Which register enables the peripheral at an address, and its bit; 0 for those that are always there. */
static uint32_t enable_of(uint32_t address, int *which) {
    static const struct { uint32_t address; int which; uint32_t bit; } all[] = {
        {AT_TIM2, APB1, 1}, {AT_TIM3, APB1, 2}, {AT_TIM4, APB1, 4}, {AT_USART2, APB1, 1 << 17}, {AT_PWR, APB1, 1 << 28},
        {AT_RTC, APB1, 1 << 28}, {AT_USART1, APB2, 1 << 4}, {AT_GPIOA, 0, 1}, {AT_GPIOB, 0, 2}, {AT_GPIOC, 0, 4},
        {AT_DMA1, 0, 1 << 21}, {AT_DMA2, 0, 1 << 22}};
    for (size_t each = 0; each < sizeof all / sizeof all[0]; each++) {
        if (all[each].address == (address & ~0x3ffu)) {
            *which = all[each].which;
            return all[each].bit;
        }
    }
    return 0;
}

bool clocks_has(uint32_t address) {
    int which = 0;
    uint32_t bit = enable_of(address, &which);
    return bit == 0 || (rcc.enables[which] & bit) != 0;
}

/* Two cycles of its bus after it was enabled (the chip's errata). */
bool clocks_is_there(uint32_t address) {
    int which = 0;
    uint32_t bit = enable_of(address, &which);
    enum bus bus = which == 0 ? BUS_AHB : which == APB1 ? BUS_APB1 : BUS_APB2;
    uint64_t takes = 2 * UNITS_A_SECOND / clocks_bus_hz(bus);
    return (rcc.came[which] & bit) == 0 || chip.now >= rcc.enabled_at[which] + takes;
}

void clocks_crystal_starts(void) {
    rcc.cr |= HSERDY;
}

void clocks_pll_locks(void) {
    rcc.cr |= PLLRDY;
}

void clocks_power_on(void) {
    rcc.csr = 0;
}

void clocks_reset(uint32_t why) {
    uint32_t csr = rcc.csr | why | 1u << 26;
    memset(&rcc, 0, sizeof rcc);
    rcc.cr = 0x83;
    rcc.pllcfgr = PLLCFGR_RESET;
    rcc.csr = csr;
    flash_acr = 0;
    set_clocks();
}

uint32_t clocks_load(uint32_t offset) {
    switch (offset) {
    case 0x00: return rcc.cr;
    case 0x04: return rcc.pllcfgr;
    case 0x08: return rcc.cfgr;
    case 0x30: return rcc.enables[0];
    case 0x40: return rcc.enables[APB1];
    case 0x44: return rcc.enables[APB2];
    case 0x74: return rcc.csr;
    default: violation("register %02x of RCC isn't modelled", (unsigned)offset); return 0;
    }
}

/* The PLL comes on: its source has to run, and what it makes has to be within its ranges. */
static void begin_pll(void) {
    bool is_fed = (rcc.pllcfgr & PLLSRC) == 0 || (rcc.cr & HSERDY) != 0;
    if (!is_fed) {
        violation("the PLL is switched on before its crystal is ready");
    }
    if (pll_in_hz() < LEAST_IN_HZ || pll_in_hz() > MOST_IN_HZ || vco_hz() < LEAST_VCO_HZ || vco_hz() > MOST_VCO_HZ) {
        violation("the PLL's oscillator has %" PRIu64 " Hz from %" PRIu64, vco_hz(), pll_in_hz());
    }
    chip_arm(E_PLL, chip.now + PLL_LOCKS_US * UNITS_A_US);
}

static void store_cr(uint32_t value) {
    uint32_t came = value & ~rcc.cr;
    if ((value & 0xf0f00004) != 0 || (value & (HSEBYP | 1u << 19 | 1u << 26)) != 0) {
        violation("RCC_CR %x: reserved, or not modelled", (unsigned)value);
    }
    if ((came & HSEON) != 0 && around.hse_hz != 0) {
        chip_arm(E_CRYSTAL, chip.now + around.hse_us * UNITS_A_US);
    }
    if ((came & PLLON) != 0) {
        begin_pll();
    }
    if ((value & PLLON) == 0 && (rcc.cr & PLLON) != 0) {
        rcc.cr &= ~(uint32_t)PLLRDY;
        if ((rcc.cfgr >> 2 & 3) == 2) {
            violation("the PLL is switched off while it is the clock");
        }
    }
    rcc.cr = (rcc.cr & (PLLRDY | HSERDY | 0xff02)) | (value & 0x010100f9);
}

static void store_pllcfgr(uint32_t value) {
    if ((value & PLLCFGR_RESERVED) != 0 || (value & PLLCFGR_FIXED) == 0) {
        violation("reserved bits of RCC_PLLCFGR: %x", (unsigned)value);
    }
    if ((rcc.cr & PLLON) != 0) {
        violation("the PLL is set while it is on");
    }
    rcc.pllcfgr = value;
}

static void store_cfgr(uint32_t value) {
    uint32_t wanted = value & 3;
    bool is_ready = wanted == 0 || (wanted == 1 && (rcc.cr & HSERDY) != 0) || (wanted == 2 && (rcc.cr & PLLRDY) != 0);
    if ((value & 0x300) != 0) {
        violation("reserved bits of RCC_CFGR: %x", (unsigned)value);
    }
    if (!is_ready) {
        violation("the clock is switched to one that isn't ready: RCC_CFGR %x", (unsigned)value);
        return;
    }
    timers_go_on();
    rcc.cfgr = (value & ~0xcu) | wanted << 2;
    set_clocks();
}

static void store_enables(int which, const char *name, uint32_t reserved, uint32_t value) {
    if ((value & reserved) != 0) {
        violation("reserved bits of RCC_%s: %x", name, (unsigned)value);
    }
    rcc.came[which] = value & ~rcc.enables[which];
    rcc.enabled_at[which] = chip.now;
    rcc.enables[which] = value;
}

void clocks_store(uint32_t offset, uint32_t value) {
    switch (offset) {
    case 0x00: store_cr(value); break;
    case 0x04: store_pllcfgr(value); break;
    case 0x08: store_cfgr(value); break;
    case 0x30: store_enables(0, "AHB1ENR", ~0x0060109fu, value); break;
    case 0x40: store_enables(APB1, "APB1ENR", ~0x10e2c80fu, value); break;
    case 0x44: store_enables(APB2, "APB2ENR", ~0x00177931u, value); break;
    case 0x74: rcc.csr = (value & 1u << 24) != 0 ? rcc.csr & 0x00ffffff : rcc.csr; break;
    default: violation("register %02x of RCC isn't modelled", (unsigned)offset); break;
    }
}

uint32_t clocks_load_flash(uint32_t offset) {
    return offset == 0 ? flash_acr : 0;
}

void clocks_store_flash(uint32_t offset, uint32_t value) {
    if (offset != 0 || (value & ~0x70fu) != 0) {
        violation("a store of %x to the flash's register %02x: reserved, or not modelled", (unsigned)value,
                  (unsigned)offset);
        return;
    }
    flash_acr = value;
    set_clocks();
}
