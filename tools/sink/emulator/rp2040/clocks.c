#include "clocks.h"

#include <inttypes.h>
#include <string.h>

#include "addresses.h"
#include "chip.h"
#include "dma.h"
#include "pins.h"
#include "pwm.h"
#include "told.h"
#include "uart.h"

enum { MOST_HZ = 133000000, LEAST_VCO_HZ = 750000000, MOST_VCO_HZ = 1600000000, LEAST_REFERENCE_HZ = 5000000 };
enum { PLL_LOCKS_US = 100, RELEASES_CYCLES = 8, SWITCHES_CYCLES = 6 };
enum { XOSC_ENABLES = 0xfab, XOSC_DISABLES = 0xd1e, XOSC_RANGE = 0xaa0, LEAST_STARTUP_US = 1000 };
enum { PLL_PD = 1, PLL_DSMPD = 4, PLL_POSTDIVPD = 8, PLL_VCOPD = 0x20, PLL_OFF = PLL_PD | PLL_VCOPD };
enum { PERI_ENABLES = 1 << 11, SYS_FROM_AUX = 1, REF_FROM_XOSC = 2 };

static struct {
    uint32_t xosc_ctrl, xosc_startup;
    bool is_stable;
    uint32_t cs, pwr, fbdiv, prim;
    bool is_locked, is_seen; /* and whether the program has seen that */
    uint32_t ref_ctrl, sys_ctrl, peri_ctrl;
    uint32_t held;         /* in reset: of RESETS */
    uint32_t was_held;     /* .. until a time */
    uint64_t released_at;
    uint64_t switched_at;  /* from when on a clock's SELECTED says what was chosen last */
    uint32_t wdsel;
} clocks;

static uint64_t vco_hz(void) {
    uint32_t by = clocks.cs & 0x3f;
    return by == 0 ? 0 : around.hse_hz / by * (uint64_t)clocks.fbdiv;
}

static bool is_pll_on(void) {
    return (clocks.pwr & PLL_OFF) == 0 && clocks_is_released(AT_PLL_SYS);
}

static uint64_t pll_hz(void) {
    uint32_t by = (clocks.prim >> 16 & 7) * (clocks.prim >> 12 & 7);
    bool runs = is_pll_on() && clocks.is_locked && (clocks.pwr & PLL_POSTDIVPD) == 0;
    return runs && by != 0 ? vco_hz() / by : 0;
}

uint64_t clocks_ref_hz(void) {
    uint32_t from = clocks.ref_ctrl & 3;
    return from == REF_FROM_XOSC ? (clocks.is_stable ? around.hse_hz : 0) : from == 0 ? around.lsi_hz : 0;
}

/* A clock that others than the two glitchless ones choose among, by the bits 5 to 7. */
static uint64_t auxiliary_hz(const uint8_t from[5], uint32_t which) {
    switch (which < 5 ? from[which] : 0) {
    case 'S': return clocks_sys_hz();
    case 'P': return pll_hz();
    case 'R': return around.lsi_hz;
    case 'X': return clocks.is_stable ? around.hse_hz : 0;
    default: return 0;
    }
}

uint64_t clocks_sys_hz(void) {
    static const uint8_t from[5] = {'P', 'U', 'R', 'X', 0};
    return (clocks.sys_ctrl & SYS_FROM_AUX) == 0 ? clocks_ref_hz() : auxiliary_hz(from, clocks.sys_ctrl >> 5 & 7);
}

uint64_t clocks_peri_hz(void) {
    static const uint8_t from[5] = {'S', 'P', 'U', 'R', 'X'};
    return (clocks.peri_ctrl & PERI_ENABLES) == 0 ? 0 : auxiliary_hz(from, clocks.peri_ctrl >> 5 & 7);
}

/* What follows from clocks that were changed. */
static void set_clocks(void) {
    uint64_t hz = clocks_sys_hz();
    if (hz == 0 || clocks_ref_hz() == 0) {
        violation("clk_sys or clk_ref is of a clock that doesn't run");
        return;
    }
    if (hz > MOST_HZ) {
        violation("clk_sys has %" PRIu64 " Hz: more than 133 MHz", hz);
    }
    chip.cycle = UNITS_A_SECOND / hz;
}

/* Lets all that counts a clock go on, before it changes. */
static void go_on(void) {
    pwm_go_on();
}

void clocks_crystal_starts(void) {
    clocks.is_stable = true;
}

void clocks_pll_locks(void) {
    clocks.is_locked = true;
}

uint32_t clocks_watched(void) {
    return clocks.wdsel;
}

static uint32_t held_now(void) {
    return chip.now < clocks.released_at ? clocks.held | clocks.was_held : clocks.held;
}

bool clocks_is_released(uint32_t base) {
    static const struct { uint32_t base, bit; } peripherals[] = {
        {AT_DMA, IN_RESET_DMA}, {AT_IO_BANK0, IN_RESET_IO_BANK0}, {AT_PADS_BANK0, IN_RESET_PADS_BANK0},
        {AT_PLL_SYS, IN_RESET_PLL_SYS}, {AT_PWM, IN_RESET_PWM}, {AT_TIMER, IN_RESET_TIMER},
        {AT_UART0, IN_RESET_UART0}};
    bool is_held = false;
    for (size_t each = 0; each < sizeof peripherals / sizeof peripherals[0]; each++) {
        is_held = is_held || (peripherals[each].base == base && (held_now() >> peripherals[each].bit & 1) != 0);
    }
    return !is_held;
}

void clocks_release(uint32_t bits) {
    clocks.held &= ~bits;
}

/* What is put into reset is as new. */
static void store_resets(uint32_t value) {
    uint32_t came = value & ~clocks.held;
    clocks.was_held = clocks.held;
    clocks.held = value;
    clocks.released_at = chip.now + RELEASES_CYCLES * chip.cycle;
    if ((value & ~(uint32_t)IN_RESET_ALL) != 0) {
        violation("reserved bits of RESETS: %x", (unsigned)value);
    }
    if ((came & (1u << IN_RESET_IO_QSPI | 1u << IN_RESET_PADS_QSPI)) != 0) {
        violation("the flash's pins are put into reset");
    }
    if ((came >> IN_RESET_PLL_SYS & 1) != 0) {
        clocks.cs = 1;
        clocks.pwr = 0x2d;
        clocks.fbdiv = 0;
        clocks.prim = 0x77000;
        clocks.is_locked = clocks.is_seen = false;
        chip_arm(E_PLL, NEVER);
    }
    if ((came >> IN_RESET_UART0 & 1) != 0) {
        uart_reset();
    }
    if ((came >> IN_RESET_PWM & 1) != 0) {
        pwm_reset();
    }
    if ((came >> IN_RESET_DMA & 1) != 0) {
        dma_reset();
    }
    if ((came & (1u << IN_RESET_IO_BANK0 | 1u << IN_RESET_PADS_BANK0)) != 0) {
        pins_reset_banks();
    }
}

static void store_xosc(uint32_t offset, uint32_t value) {
    if (offset == 0x0c && value < 0x4000) {
        clocks.xosc_startup = value;
        return;
    }
    uint64_t startup_us = around.hse_hz == 0 ? 0 : clocks.xosc_startup * UINT64_C(256000000) / around.hse_hz;
    if (offset != 0 || value != (XOSC_ENABLES << 12 | XOSC_RANGE)) {
        violation("register %02x of XOSC: %x isn't modelled", (unsigned)offset, (unsigned)value);
        return;
    }
    if (around.hse_hz != 0 && startup_us < LEAST_STARTUP_US) {
        violation("the crystal has %u us to start, which needs a millisecond", (unsigned)startup_us);
    }
    clocks.xosc_ctrl = value;
    if (around.hse_hz != 0 && !clocks.is_stable) {
        chip_arm(E_CRYSTAL, chip.now + (around.hse_us + startup_us) * UNITS_A_US);
    }
}

static void start_pll(void) {
    uint64_t hz = vco_hz();
    if (!clocks.is_stable) {
        violation("the PLL is switched on before its crystal is ready");
    } else if (around.hse_hz / (clocks.cs & 0x3f) < LEAST_REFERENCE_HZ) {
        violation("the PLL's reference has less than 5 MHz");
    } else if (clocks.fbdiv < 16 || clocks.fbdiv > 320 || hz < LEAST_VCO_HZ || hz > MOST_VCO_HZ) {
        violation("the PLL's oscillator: times %u, %" PRIu64 " Hz", (unsigned)clocks.fbdiv, hz);
    }
    chip_arm(E_PLL, chip.now + PLL_LOCKS_US * UNITS_A_US);
}

/* Its oscillator's settings stay while it is on, and those of its dividers while it is used. */
static void check_pll(uint32_t offset) {
    bool is_used = (clocks.sys_ctrl & SYS_FROM_AUX) != 0 && (clocks.sys_ctrl >> 5 & 7) == 0;
    if ((offset == 0 || offset == 8) && is_pll_on()) {
        violation("register %02x of PLL_SYS is changed while that is on", (unsigned)offset);
    } else if (is_used) {
        violation("register %02x of PLL_SYS is changed while that is clk_sys", (unsigned)offset);
    }
}

static void store_pll(uint32_t offset, uint32_t value) {
    static const uint32_t modelled[4] = {0x3f, 0x2d, 0xfff, 0x77000};
    bool was_on = is_pll_on();
    if (offset > 0x0c || (value & ~modelled[offset / 4]) != 0) {
        violation("register %02x of PLL_SYS: %x isn't modelled", (unsigned)offset, (unsigned)value);
        return;
    }
    check_pll(offset);
    switch (offset) {
    case 0x00: clocks.cs = value; break;
    case 0x04: clocks.pwr = value; break;
    case 0x08: clocks.fbdiv = value; break;
    default: clocks.prim = value; break;
    }
    if (!was_on && is_pll_on()) {
        start_pll();
    } else if (was_on && !is_pll_on()) {
        clocks.is_locked = clocks.is_seen = false;
        chip_arm(E_PLL, NEVER);
    }
}

/* What the clock of a glitchless choice comes from: a one for each, once it has changed. */
static uint32_t selected(uint32_t from) {
    return chip.now < clocks.switched_at ? 0 : 1u << from;
}

static void store_clocks(uint32_t offset, uint32_t value) {
    bool is_aux = (clocks.sys_ctrl & SYS_FROM_AUX) != 0;
    if ((offset == 0x34 || offset == 0x40) && value == 0x100) {
        return;
    }
    go_on();
    if (offset == 0x30 && (value & ~3u) == 0 && value != 3) {
        clocks.ref_ctrl = value;
    } else if (offset == 0x3c && (value & ~0xe1u) == 0) {
        if (is_aux && ((value ^ clocks.sys_ctrl) & 0xe0) != 0) {
            violation("clk_sys's auxiliary clock is changed while it is used");
        }
        clocks.sys_ctrl = value;
        if ((value & SYS_FROM_AUX) != 0 && (value >> 5 & 7) == 0 && !clocks.is_seen) {
            violation("PLL_SYS is made a clock before anybody has seen that it is locked");
        }
    } else if (offset == 0x48 && (value & ~0x8e0u) == 0) {
        clocks.peri_ctrl = value;
    } else {
        violation("register %02x of CLOCKS: %x isn't modelled", (unsigned)offset, (unsigned)value);
    }
    clocks.switched_at = chip.now + SWITCHES_CYCLES * chip.cycle;
    set_clocks();
    pwm_clock_changed();
    uart_receives();
}

uint32_t clocks_load(uint32_t base, uint32_t offset) {
    switch (base | offset) {
    case AT_XOSC: return clocks.xosc_ctrl;
    case AT_XOSC | 0x04: return (clocks.is_stable ? 1u << 31 : 0) | (clocks.xosc_ctrl != 0 ? 1u << 12 : 0);
    case AT_XOSC | 0x0c: return clocks.xosc_startup;
    case AT_PLL_SYS:
        clocks.is_seen = is_pll_on() && clocks.is_locked;
        return clocks.cs | (clocks.is_seen ? 1u << 31 : 0);
    case AT_PLL_SYS | 0x04: return clocks.pwr;
    case AT_PLL_SYS | 0x08: return clocks.fbdiv;
    case AT_PLL_SYS | 0x0c: return clocks.prim;
    case AT_CLOCKS | 0x30: return clocks.ref_ctrl;
    case AT_CLOCKS | 0x38: return selected(clocks.ref_ctrl & 3);
    case AT_CLOCKS | 0x3c: return clocks.sys_ctrl;
    case AT_CLOCKS | 0x44: return selected(clocks.sys_ctrl & 1);
    case AT_CLOCKS | 0x48: return clocks.peri_ctrl;
    case AT_RESETS: return clocks.held;
    case AT_RESETS | 0x08: return ~held_now() & IN_RESET_ALL;
    case AT_PSM | 0x08: return clocks.wdsel;
    default: violation("a load of %08x isn't modelled", (unsigned)(base | offset)); return 0;
    }
}

void clocks_store(uint32_t base, uint32_t offset, uint32_t value) {
    if (base == AT_XOSC) {
        store_xosc(offset, value);
    } else if (base == AT_PLL_SYS) {
        store_pll(offset, value);
    } else if (base == AT_CLOCKS) {
        store_clocks(offset, value);
    } else if (base == AT_RESETS && offset == 0) {
        store_resets(value);
    } else if (base == AT_PSM && offset == 8 && (value & ~0x1ffffu) == 0) {
        clocks.wdsel = value;
    } else {
        violation("a store of %x to %08x isn't modelled", (unsigned)value, (unsigned)(base | offset));
    }
}

void clocks_reset(bool is_by_watchdog) {
    bool is_stable = clocks.is_stable && is_by_watchdog && (clocks.wdsel & 2) == 0;
    memset(&clocks, 0, sizeof clocks);
    clocks.is_stable = is_stable;
    clocks.xosc_ctrl = is_stable ? XOSC_ENABLES << 12 | XOSC_RANGE : 0;
    clocks.cs = 1;
    clocks.pwr = 0x2d;
    clocks.prim = 0x77000;
    clocks.held = IN_RESET_ALL;
    set_clocks();
}
