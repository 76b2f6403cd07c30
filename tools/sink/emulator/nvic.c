#include "nvic.h"

#include <string.h>

#include "chip.h"
#include "core.h"
#include "told.h"

enum { LOWEST = 256, LATE_CYCLES = 14 };
enum { AT_PRIORITIES = 0xe000e400, AT_CPUID = 0xe000ed00, AT_ICSR = 0xe000ed04, AT_VTOR = 0xe000ed08,
       AT_AIRCR = 0xe000ed0c, AT_CCR = 0xe000ed14 };

static struct {
    bool line[IRQS], pending[IRQS], enabled[IRQS], active[IRQS];
    uint8_t priority[IRQS];
    uint64_t pended_at[IRQS], fell_at[IRQS], entered_at[IRQS];
} nvic;
static bool is_in_fault;
static uint32_t vtor;
struct nvic_figures nvic_figures;

void nvic_reset(void) {
    memset(&nvic, 0, sizeof nvic);
    is_in_fault = false;
    vtor = 0;
}

uint32_t nvic_vectors(void) {
    return vtor;
}

void nvic_pend(int irq) {
    if (!nvic.pending[irq]) {
        nvic.pended_at[irq] = chip.happened != 0 ? chip.happened : chip.now;
    }
    nvic.pending[irq] = true;
    chip.is_due = true;
}

void nvic_line(int irq, bool level) {
    if (level && !nvic.line[irq]) {
        nvic_pend(irq);
    }
    if (!level && nvic.line[irq]) {
        nvic.fell_at[irq] = chip.now;
    }
    nvic.line[irq] = level;
}

static int active_priority(void) {
    int least = is_in_fault ? -1 : LOWEST;
    for (int irq = 0; irq < IRQS; irq++) {
        least = nvic.active[irq] && nvic.priority[irq] < least ? nvic.priority[irq] : least;
    }
    return least;
}

uint32_t nvic_due(void) {
    int best = LOWEST;
    uint32_t number = 0;
    for (int irq = 0; irq < IRQS; irq++) {
        if (nvic.pending[irq] && nvic.enabled[irq] && nvic.priority[irq] < best) {
            best = nvic.priority[irq];
            number = (uint32_t)(CORE_IRQ0 + irq);
        }
    }
    return number != 0 && best < active_priority() && core.masks == 0 ? number : 0;
}

void nvic_entered(uint32_t number) {
    if (number < CORE_IRQ0) {
        is_in_fault = true;
        violation("exception %u is entered: a fault", (unsigned)number);
        return;
    }
    uint32_t irq = number - CORE_IRQ0;
    uint64_t latency = chip.now - nvic.pended_at[irq];
    nvic.pending[irq] = false;
    nvic.active[irq] = true;
    nvic.entered_at[irq] = chip.now;
    nvic_figures.entries++;
    nvic_figures.spurious += !nvic.line[irq];
    nvic_figures.latency = latency > nvic_figures.latency ? latency : nvic_figures.latency;
}

void nvic_left(uint32_t number) {
    chip.is_due = true;
    if (number < CORE_IRQ0) {
        is_in_fault = false;
        return;
    }
    uint32_t irq = number - CORE_IRQ0;
    uint64_t lasted = chip.now - nvic.entered_at[irq];
    nvic.active[irq] = false;
    nvic_figures.handler = lasted > nvic_figures.handler ? lasted : nvic_figures.handler;
    if (nvic.line[irq]) {
        nvic_pend((int)irq);
    } else if (nvic.fell_at[irq] >= nvic.entered_at[irq] && chip.now - nvic.fell_at[irq] < LATE_CYCLES * chip.cycle) {
        violation("the handler of interrupt %u clears its flag so late that it is entered once more", (unsigned)irq);
    }
}

/* Which bit of an interrupt a register of ISER, ICER, ISPR, ICPR or IABR has: its number is in bits 7 to 9. */
static const bool *bits_of(uint32_t address) {
    uint32_t which = address >> 7 & 7;
    return which < 4 ? nvic.enabled : which < 6 ? nvic.pending : nvic.active;
}

bool nvic_load(uint32_t address, uint32_t *value) {
    uint32_t first = (address & 0x7f) * 8;
    *value = 0;
    if (address >= 0xe000e100 && address < AT_PRIORITIES) {
        for (uint32_t bit = 0; bit < 32 && first + bit < IRQS; bit++) {
            *value |= (uint32_t)bits_of(address)[first + bit] << bit;
        }
        return true;
    }
    switch (address) {
    case AT_CPUID: *value = CORE_ID; return true;
    case AT_ICSR: *value = core.exception; return true;
    case AT_VTOR: *value = vtor; return true;
    case AT_AIRCR: *value = 0xfa050000; return true;
    case AT_CCR: *value = core.aligns_stack ? 0x200 : 0; return true;
    default: violation("a load of %08x of the core isn't modelled", (unsigned)address); return false;
    }
}

/* Sets or clears what one bit of a register is for. */
static void set_bit(uint32_t address, uint32_t irq) {
    if (irq >= IRQS) {
        violation("interrupt %u isn't one of this chip", (unsigned)irq);
        return;
    }
    switch (address >> 7 & 7) {
    case 2: nvic.enabled[irq] = true; break;
    case 3: nvic.enabled[irq] = false; break;
    case 4: nvic_pend((int)irq); break;
    default:
        nvic.pending[irq] = false;
        if (nvic.line[irq] && !nvic.active[irq]) {
            nvic_pend((int)irq);
        }
        break;
    }
    chip.is_due = true;
}

static void store_vtor(uint32_t value) {
    if (value % VECTORS_ALIGNED != 0) {
        violation("VTOR %x: the vectors have to be at a multiple of %u bytes", (unsigned)value,
                  (unsigned)VECTORS_ALIGNED);
    }
    vtor = value;
}

bool nvic_store(uint32_t address, uint32_t size, uint32_t value) {
    if (address >= 0xe000e100 && address < 0xe000e300 && size == 4) {
        for (uint32_t bits = value; bits != 0; bits &= bits - 1) {
            set_bit(address, (address & 0x7f) * 8 + (uint32_t)__builtin_ctz(bits));
        }
        return true;
    }
    if (address >= AT_PRIORITIES && address < AT_PRIORITIES + IRQS) {
        for (uint32_t at = 0; at < size && address - AT_PRIORITIES + at < IRQS; at++) {
            nvic.priority[address - AT_PRIORITIES + at] = (uint8_t)(value >> 8 * at & PRIORITY_BITS);
        }
        return true;
    }
    if (address == AT_CCR) {
        core.aligns_stack = (value & 0x200) != 0;
        return true;
    }
    if (address == AT_VTOR) {
        store_vtor(value);
        return true;
    }
    violation("a store to %08x of the core isn't modelled", (unsigned)address);
    return false;
}
