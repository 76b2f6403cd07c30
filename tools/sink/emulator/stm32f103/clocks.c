#include "clocks.h"

#include <inttypes.h>
#include <string.h>

#include "addresses.h"
#include "chip.h"
#include "flash.h"
#include "timers.h"
#include "told.h"

enum { HSI_HZ = 8000000, HSI_OF_PLL_HZ = 4000000, MOST_HZ = 72000000, MOST_APB1_HZ = 36000000, PLL_LOCKS_US = 200 };
enum { HSEON = 1 << 16, HSERDY = 1 << 17, HSEBYP = 1 << 18, CSSON = 1 << 19, PLLON = 1 << 24, PLLRDY = 1 << 25 };
enum { PLLSRC = 1 << 16, PLLXTPRE = 1 << 17, PLL_BITS = 0x3f0000 };

static struct {
    uint32_t cr, cfgr, ahbenr, apb2enr, apb1enr, csr;
} rcc;
static uint32_t flash_acr;
static uint64_t access_units[BUSES];
static uint64_t timer_units;

static uint64_t pll_hz(void) {
    uint64_t crystal = (rcc.cfgr & PLLXTPRE) != 0 ? around.hse_hz / 2 : around.hse_hz;
    uint32_t times = (rcc.cfgr >> 18 & 15) + 2;
    return ((rcc.cfgr & PLLSRC) == 0 ? HSI_OF_PLL_HZ : crystal) * (times > 16 ? 16 : times);
}

static uint64_t system_hz(void) {
    switch (rcc.cfgr >> 2 & 3) {
    case 0: return HSI_HZ;
    case 1: return around.hse_hz;
    default: return pll_hz();
    }
}

static uint32_t divisor_of_apb(uint32_t bits) {
    return bits < 4 ? 1 : 2u << (bits - 4);
}

uint64_t clocks_hclk_hz(void) {
    static const uint32_t by[8] = {2, 4, 8, 16, 64, 128, 256, 512};
    uint32_t bits = rcc.cfgr >> 4 & 15;
    return system_hz() / (bits < 8 ? 1 : by[bits - 8]);
}

uint64_t clocks_bus_hz(enum bus bus) {
    uint32_t bits = rcc.cfgr >> (bus == BUS_APB1 ? 8 : 11) & 7;
    return clocks_hclk_hz() / (bus == BUS_AHB ? 1 : divisor_of_apb(bits));
}

uint64_t clocks_timer_hz(void) {
    return (rcc.cfgr >> 8 & 7) < 4 ? clocks_bus_hz(BUS_APB1) : 2 * clocks_bus_hz(BUS_APB1);
}

uint64_t clocks_timer_units(void) {
    return timer_units;
}

uint64_t clocks_access_units(enum bus bus) {
    return access_units[bus];
}

/* Checks what RM0008 allows. */
static void check(uint64_t hz) {
    uint32_t needs = hz <= 24000000 ? 0 : hz <= 48000000 ? 1 : 2;
    if (UNITS_A_SECOND % clocks_hclk_hz() != 0) {
        violation("a clock of %" PRIu64 " Hz isn't modelled", clocks_hclk_hz());
    }
    if (hz > MOST_HZ) {
        violation("a clock of %" PRIu64 " Hz: more than 72 MHz", hz);
    }
    if ((flash_acr & 7) < needs) {
        violation("%u wait states of the flash at %" PRIu64 " Hz, which needs %u", (unsigned)(flash_acr & 7), hz,
                  (unsigned)needs);
    }
    if (clocks_bus_hz(BUS_APB1) > MOST_APB1_HZ) {
        violation("APB1 has %" PRIu64 " Hz: more than 36 MHz", clocks_bus_hz(BUS_APB1));
    }
}

/* What follows from clocks that were changed. */
static void set_clocks(void) {
    uint64_t hz = system_hz();
    if (hz == 0) {
        violation("no clock");
        return;
    }
    chip.cycle = UNITS_A_SECOND / clocks_hclk_hz();
    flash_set(flash_acr);
    access_units[BUS_AHB] = 2 * chip.cycle;
    for (int bus = BUS_APB1; bus <= BUS_APB2; bus++) {
        access_units[bus] = (1 + 2 * clocks_hclk_hz() / clocks_bus_hz((enum bus)bus)) * chip.cycle;
    }
    timer_units = UNITS_A_SECOND / clocks_timer_hz();
    check(hz);
}

bool clocks_has(uint32_t address) {
    switch (address & ~0x3ffu) {
    case AT_TIM2: return (rcc.apb1enr & 1) != 0;
    case AT_TIM3: return (rcc.apb1enr & 2) != 0;
    case AT_TIM4: return (rcc.apb1enr & 4) != 0;
    case AT_BKP: return (rcc.apb1enr & 1u << 27) != 0;
    case AT_PWR: return (rcc.apb1enr & 1u << 28) != 0;
    case AT_AFIO: return (rcc.apb2enr & 1) != 0;
    case AT_GPIOA: return (rcc.apb2enr & 4) != 0;
    case AT_GPIOB: return (rcc.apb2enr & 8) != 0;
    case AT_USART1: return (rcc.apb2enr & 0x4000) != 0;
    case AT_DMA1: return (rcc.ahbenr & 1) != 0;
    default: return true;
    }
}

void clocks_crystal_starts(void) {
    rcc.cr |= HSERDY;
}

void clocks_pll_locks(void) {
    rcc.cr |= PLLRDY;
}

void clocks_power_on(void) {
    rcc.csr = 0;
}

void clocks_reset(uint32_t why) {
    uint32_t csr = rcc.csr | why | 1u << 26;
    memset(&rcc, 0, sizeof rcc);
    rcc.cr = 0x83;
    rcc.ahbenr = 0x14;
    rcc.csr = csr;
    flash_acr = 0x30;
    set_clocks();
}

uint32_t clocks_load(uint32_t offset) {
    switch (offset) {
    case 0x00: return rcc.cr;
    case 0x04: return rcc.cfgr;
    case 0x14: return rcc.ahbenr;
    case 0x18: return rcc.apb2enr;
    case 0x1c: return rcc.apb1enr;
    case 0x24: return rcc.csr;
    default: violation("register %02x of RCC isn't modelled", (unsigned)offset); return 0;
    }
}

static void store_cr(uint32_t value) {
    uint32_t came = value & ~rcc.cr;
    if ((value & 0xfcf00004) != 0 || (value & (HSEBYP | CSSON)) != 0) {
        violation("RCC_CR %x: reserved, or not modelled", (unsigned)value);
    }
    if ((came & HSEON) != 0 && around.hse_hz != 0) {
        chip_arm(E_CRYSTAL, chip.now + around.hse_us * UNITS_A_US);
    }
    if ((came & PLLON) != 0) {
        bool is_fed = (rcc.cfgr & PLLSRC) == 0 || (rcc.cr & HSERDY) != 0;
        chip_arm(E_PLL, chip.now + PLL_LOCKS_US * UNITS_A_US);
        if (!is_fed) {
            violation("the PLL is switched on before its crystal is ready");
        }
    }
    if ((value & PLLON) == 0 && (rcc.cr & PLLON) != 0) {
        rcc.cr &= ~(uint32_t)PLLRDY;
        if ((rcc.cfgr >> 2 & 3) == 2) {
            violation("the PLL is switched off while it is the clock");
        }
    }
    rcc.cr = (rcc.cr & (PLLRDY | HSERDY | 0xff02)) | (value & 0x010d00f9);
}

static void store_cfgr(uint32_t value) {
    uint32_t wanted = value & 3;
    bool is_ready = wanted == 0 || (wanted == 1 && (rcc.cr & HSERDY) != 0) || (wanted == 2 && (rcc.cr & PLLRDY) != 0);
    if ((value & 0xf8800000) != 0) {
        violation("reserved bits of RCC_CFGR: %x", (unsigned)value);
    }
    if (((value ^ rcc.cfgr) & PLL_BITS) != 0 && (rcc.cr & PLLON) != 0) {
        violation("the PLL is set while it is on");
    }
    if (!is_ready) {
        violation("the clock is switched to one that isn't ready: RCC_CFGR %x", (unsigned)value);
        return;
    }
    timers_go_on();
    rcc.cfgr = (value & ~0xcu) | wanted << 2;
    set_clocks();
}

/* Stores what enables clocks: bits that are reserved stay 0. */
static void store_enables(uint32_t *enables, const char *name, uint32_t reserved, uint32_t value) {
    if ((value & reserved) != 0) {
        violation("reserved bits of RCC_%s: %x", name, (unsigned)value);
    }
    *enables = value;
}

void clocks_store(uint32_t offset, uint32_t value) {
    switch (offset) {
    case 0x00: store_cr(value); break;
    case 0x04: store_cfgr(value); break;
    case 0x14:
        store_enables(&rcc.ahbenr, "AHBENR", ~0x557u, value);
        if ((value & 0x14) != 0x14) {
            violation("RCC_AHBENR %x takes the clock of the flash or the RAM away while the core sleeps",
                      (unsigned)value);
        }
        break;
    case 0x18: store_enables(&rcc.apb2enr, "APB2ENR", ~0x5e7du, value); break;
    case 0x1c: store_enables(&rcc.apb1enr, "APB1ENR", ~0x1ae64807u, value); break;
    case 0x24: rcc.csr = (value & 1u << 24) != 0 ? rcc.csr & 0x00ffffff : rcc.csr; break;
    default: violation("register %02x of RCC isn't modelled", (unsigned)offset); break;
    }
}

uint32_t clocks_load_flash(uint32_t offset) {
    return offset == 0 ? flash_acr : 0;
}

void clocks_store_flash(uint32_t offset, uint32_t value) {
    if (offset != 0 || (value & ~0x3fu) != 0) {
        violation("a store of %x to the flash's register %02x", (unsigned)value, (unsigned)offset);
        return;
    }
    flash_acr = (value & 0x1f) | (value & 0x10) << 1;
    set_clocks();
}
