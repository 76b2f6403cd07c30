#include "pwm.h"

#include <stdbool.h>
#include <string.h>

#include "chip.h"
#include "clocks.h"
#include "nvic.h"
#include "pins.h"
#include "told.h"

enum { SLICES = 8, SLICE_BYTES = 0x14, IRQ = 4, TURN = 65536, CHANNELS = 2 };
enum { AT_EN = 0xa0, AT_INTR = 0xa4, AT_INTE = 0xa8, AT_INTF = 0xac, AT_INTS = 0xb0 };

struct slice {
    bool is_on;
    uint32_t div;           /* 16ths of a cycle */
    uint32_t cc, top;
    uint32_t cc_now, top_now; /* which are in force: from the next turn on */
    uint32_t ctr;
    uint64_t since;         /* when the counter came to `ctr` */
};
static struct slice slices[SLICES];
static uint32_t raised, enabled, forced;

static uint64_t tick_of(const struct slice *slice) {
    return (slice->div == 0 ? 4096 : slice->div) * chip.cycle / 16;
}

uint64_t pwm_tick_hz(uint32_t slice) {
    return clocks_sys_hz() * 16 / slices[slice].div;
}

uint64_t pwm_turn_hz(uint32_t slice) {
    return pwm_tick_hz(slice) / (slices[slice].top_now + 1);
}

/* The duty at a pin; a slice that stands has its level for ever. */
static uint32_t duty_of(const struct slice *slice, uint32_t channel) {
    uint32_t compare = slice->cc_now >> 16 * channel & 0xffff;
    uint32_t whole = slice->top_now + 1;
    if (!slice->is_on) {
        return slice->ctr < compare ? whole : 0;
    }
    return compare < whole ? compare : whole;
}

void pwm_note_duties(void) {
    for (uint32_t pin = 0; pin < PINS; pin++) {
        bool is_driven = pins_drives(pin, PIN_OF_PWM);
        pins_note_duty(pin, is_driven ? duty_of(&slices[pin / 2 % SLICES], pin % CHANNELS) : 0);
    }
}

static void take_over(struct slice *slice) {
    bool is_same = slice->cc_now == slice->cc && slice->top_now == slice->top;
    slice->cc_now = slice->cc;
    slice->top_now = slice->top;
    if (!is_same) {
        pwm_note_duties();
    }
}

/* Ticks until it turns over. */
static uint64_t ticks_to_turn(const struct slice *slice) {
    return slice->ctr > slice->top_now ? TURN - slice->ctr : slice->top_now + 1 - slice->ctr;
}

/* Lets a slice go on to now, from one turn to the next. */
static void go_on(struct slice *slice) {
    uint64_t ticks = slice->is_on ? (chip.now - slice->since) / tick_of(slice) : 0;
    if (!slice->is_on) {
        slice->since = chip.now;
    }
    while (ticks > 0) {
        uint64_t turn = ticks_to_turn(slice);
        uint64_t step = ticks < turn ? ticks : turn;
        slice->since += step * tick_of(slice);
        slice->ctr += (uint32_t)step;
        ticks -= step;
        if (step == turn) {
            slice->ctr = 0;
            raised |= 1u << (slice - slices);
            take_over(slice);
        }
    }
}

/* When a slice turns over, where that is waited for. */
static uint64_t time_of(const struct slice *slice) {
    uint32_t bit = 1u << (slice - slices);
    bool is_wanted = (enabled & ~raised & bit) != 0 || slice->cc != slice->cc_now || slice->top != slice->top_now;
    return slice->is_on && is_wanted ? slice->since + ticks_to_turn(slice) * tick_of(slice) : NEVER;
}

static void arm(void) {
    uint64_t least = NEVER;
    nvic_line(IRQ, ((raised | forced) & enabled) != 0);
    for (uint32_t each = 0; each < SLICES; each++) {
        uint64_t time = time_of(&slices[each]);
        least = time < least ? time : least;
    }
    chip_arm(E_PWM, least);
}

void pwm_go_on(void) {
    for (uint32_t each = 0; each < SLICES; each++) {
        go_on(&slices[each]);
    }
}

void pwm_clock_changed(void) {
    arm();
}

void pwm_happen(void) {
    chip.happened = chip.at[E_PWM];
    pwm_go_on();
    arm();
    chip.happened = 0;
}

void pwm_reset(void) {
    memset(slices, 0, sizeof slices);
    raised = enabled = forced = 0;
    for (uint32_t each = 0; each < SLICES; each++) {
        slices[each].div = 16;
        slices[each].top = slices[each].top_now = 0xffff;
        slices[each].since = chip.now;
    }
    chip_arm(E_PWM, NEVER);
}

static uint32_t on(void) {
    uint32_t bits = 0;
    for (uint32_t each = 0; each < SLICES; each++) {
        bits |= (uint32_t)slices[each].is_on << each;
    }
    return bits;
}

uint32_t pwm_load(uint32_t offset) {
    struct slice *slice = &slices[offset / SLICE_BYTES % SLICES];
    if (offset < AT_EN) {
        go_on(slice);
        switch (offset % SLICE_BYTES) {
        case 0x00: return slice->is_on;
        case 0x04: return slice->div;
        case 0x08: return slice->ctr;
        case 0x0c: return slice->cc;
        default: return slice->top;
        }
    }
    pwm_go_on();
    switch (offset) {
    case AT_EN: return on();
    case AT_INTR: return raised;
    case AT_INTE: return enabled;
    case AT_INTF: return forced;
    case AT_INTS: return (raised | forced) & enabled;
    default: violation("register %02x of the PWM isn't modelled", (unsigned)offset); return 0;
    }
}

static void store_slice(struct slice *slice, uint32_t which, uint32_t value) {
    switch (which) {
    case 0x00: slice->is_on = (value & 1) != 0; break;
    case 0x04: slice->div = value; break;
    case 0x08: slice->ctr = value; break;
    case 0x0c: slice->cc = value; break;
    default: slice->top = value; break;
    }
    if (!slice->is_on) {
        slice->since = chip.now;
        take_over(slice);
    }
}

static void store_all(uint32_t offset, uint32_t value) {
    switch (offset) {
    case AT_EN:
        for (uint32_t each = 0; each < SLICES; each++) {
            slices[each].is_on = (value >> each & 1) != 0;
        }
        break;
    case AT_INTR: raised &= ~value; break; /* cleared by ones */
    case AT_INTE: enabled = value; break;
    default: forced = value; break;
    }
}

void pwm_store(uint32_t offset, uint32_t value) {
    static const uint32_t modelled[5] = {1, 0xfff, 0xffff, 0xffffffff, 0xffff};
    uint32_t most = offset < AT_EN ? modelled[offset % SLICE_BYTES / 4] : 0xff;
    if (offset >= AT_INTS || (value & ~most) != 0) {
        violation("register %02x of the PWM: %x is reserved, or isn't modelled", (unsigned)offset, (unsigned)value);
        return;
    }
    pwm_go_on();
    if (offset < AT_EN) {
        store_slice(&slices[offset / SLICE_BYTES], offset % SLICE_BYTES, value);
    } else {
        store_all(offset, value);
    }
    pwm_note_duties();
    arm();
}
