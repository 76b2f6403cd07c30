#include "timers.h"

#include <stdbool.h>
#include <string.h>

#include "chip.h"
#include "clocks.h"
#include "line.h"
#include "nvic.h"
#include "pins.h"
#include "told.h"

enum { CHANNELS = 4, FIRST_IRQ = 28, PWM_MODE_1 = 6 };
enum { CR1_ON = 1, CR1_NO_UPDATES = 2, CR1_UPDATES_BY_OVERFLOW = 4, CR1_ARR_PRELOADED = 0x80 };

struct timer {
    uint32_t cr1, dier, sr, ccmr[2], ccer, psc, arr, ccr[CHANNELS];
    uint32_t psc_now, arr_now, ccr_now[CHANNELS]; /* which are in force */
    uint32_t cnt;
    uint64_t since; /* when the counter came to `cnt` */
};
static struct timer timers[TIMERS];

static uint64_t tick_of(const struct timer *timer) {
    return (timer->psc_now + 1) * clocks_timer_units();
}

uint64_t timers_tick_hz(int which) {
    return clocks_timer_hz() / (timers[which].psc_now + 1);
}

static struct timer *pwm(void) {
    return &timers[line_of_board()->pwm_timer];
}

static int pwm_channel(void) {
    return line_of_board()->pwm_channel - 1;
}

uint64_t timers_pwm_hz(void) {
    return timers_tick_hz(line_of_board()->pwm_timer) / (UINT64_C(1) + pwm()->arr_now);
}

static uint32_t mode_of(const struct timer *timer, int channel) {
    return timer->ccmr[channel / 2] >> channel % 2 * 8 & 0xff;
}

static bool is_preloaded(const struct timer *timer, int channel) {
    return (mode_of(timer, channel) & 8) != 0;
}

void timers_note_duty(void) {
    const struct timer *timer = pwm();
    uint32_t mode = mode_of(timer, pwm_channel());
    uint32_t enables = timer->ccer >> 4 * pwm_channel() & 15;
    bool is_on = (enables & 1) != 0 && (timer->cr1 & CR1_ON) != 0 && pins_is_output_of_timer(line_of_board()->pwm);
    if (is_on && ((mode >> 4 & 7) != PWM_MODE_1 || (mode & 3) != 0 || (enables & 2) != 0)) {
        violation("the PWM's channel in mode %x isn't modelled", (unsigned)mode);
    }
    pins_note_duty(is_on ? timer->ccr_now[pwm_channel()] : 0);
}

static void update(struct timer *timer) {
    timer->psc_now = timer->psc;
    timer->arr_now = timer->arr;
    memcpy(timer->ccr_now, timer->ccr, sizeof timer->ccr);
    timers_note_duty();
}

static uint32_t most_of(const struct timer *timer) {
    return TIMER_MOST(timer - timers);
}

/* Ticks until the counter comes to a value next: at least 1; 0 for never. */
static uint64_t ticks_to(const struct timer *timer, uint32_t value) {
    uint64_t most = timer->cnt > timer->arr_now ? most_of(timer) : timer->arr_now;
    uint64_t period = most + 1;
    if (value >= period || (timer->arr_now == 0 && timer->cnt == 0)) {
        return 0;
    }
    return value > timer->cnt ? value - timer->cnt : value + period - timer->cnt;
}

/* Notes which channels match within so many ticks. */
static void note_matches(struct timer *timer, uint64_t ticks) {
    for (int channel = 0; channel < CHANNELS; channel++) {
        uint64_t to = ticks_to(timer, timer->ccr_now[channel]);
        bool is_output = (mode_of(timer, channel) & 3) == 0;
        timer->sr |= is_output && to != 0 && to <= ticks ? 2u << channel : 0;
    }
}

/* Lets a timer go on to now, from one turn to the next. */
static void go_on(struct timer *timer) {
    uint64_t ticks = (chip.now - timer->since) / tick_of(timer);
    uint64_t turn = ticks_to(timer, 0);
    if ((timer->cr1 & CR1_ON) == 0 || turn == 0) {
        timer->since = chip.now;
        return;
    }
    while (ticks > 0) {
        bool turns = ticks >= turn;
        uint64_t step = turns ? turn : ticks;
        note_matches(timer, step);
        timer->since += step * tick_of(timer);
        timer->cnt = turns ? 0 : timer->cnt + (uint32_t)step;
        if (turns && (timer->cr1 & CR1_NO_UPDATES) == 0) {
            timer->sr |= 1;
            update(timer);
        }
        ticks = (chip.now - timer->since) / tick_of(timer);
        turn = ticks_to(timer, 0);
    }
}

void timers_go_on(void) {
    for (int which = 0; which < TIMERS; which++) {
        go_on(&timers[which]);
    }
}

/* When a flag is to come that is waited for. */
static uint64_t time_of(const struct timer *timer, int flag) {
    bool is_wanted = (timer->dier >> flag & 1) != 0 && (timer->sr >> flag & 1) == 0;
    bool is_duty = flag == 0 && timer == pwm() && timer->ccr_now[pwm_channel()] != timer->ccr[pwm_channel()];
    uint64_t ticks = is_wanted || is_duty ? ticks_to(timer, flag == 0 ? 0 : timer->ccr_now[flag - 1]) : 0;
    return ticks == 0 ? NEVER : timer->since + ticks * tick_of(timer);
}

static void arm(int which) {
    const struct timer *timer = &timers[which];
    uint64_t least = NEVER;
    nvic_line(FIRST_IRQ + which, (timer->sr & timer->dier & 0x1f) != 0);
    for (int flag = 0; flag <= CHANNELS && (timer->cr1 & CR1_ON) != 0; flag++) {
        uint64_t time = time_of(timer, flag);
        least = time < least ? time : least;
    }
    chip_arm(E_TIM2 + which, least);
}

void timers_happen(int which) {
    chip.happened = chip.at[E_TIM2 + which];
    go_on(&timers[which]);
    arm(which);
    chip.happened = 0;
}

void timers_reset(void) {
    memset(timers, 0, sizeof timers);
    for (int which = 0; which < TIMERS; which++) {
        timers[which].since = chip.now;
    }
}

uint32_t timers_load(int which, uint32_t offset) {
    struct timer *timer = &timers[which];
    go_on(timer);
    switch (offset) {
    case 0x00: return timer->cr1;
    case 0x0c: return timer->dier;
    case 0x10: return timer->sr;
    case 0x18: case 0x1c: return timer->ccmr[(offset - 0x18) / 4];
    case 0x20: return timer->ccer;
    case 0x24: return timer->cnt;
    case 0x28: return timer->psc;
    case 0x2c: return timer->arr;
    case 0x34: case 0x38: case 0x3c: case 0x40: return timer->ccr[(offset - 0x34) / 4];
    default: violation("register %02x of a timer isn't modelled", (unsigned)offset); return 0;
    }
}

static void generate(struct timer *timer, uint32_t value) {
    timer->sr |= value & 0x5e;
    if ((value & 1) != 0) {
        timer->cnt = 0;
        timer->since = chip.now;
        timer->sr |= (timer->cr1 & CR1_UPDATES_BY_OVERFLOW) == 0 ? 1 : 0;
        update(timer);
    }
}

static void store_compare(struct timer *timer, int channel, uint32_t value) {
    timer->ccr[channel] = value;
    if (!is_preloaded(timer, channel)) {
        timer->ccr_now[channel] = value;
        timer->sr |= around.matches_at_once && timer->cnt == value ? 2u << channel : 0;
    }
}

/* The bits of each register that are modelled; 0 for none. */
static uint32_t modelled_bits(const struct timer *timer, uint32_t offset) {
    static const uint32_t bits[] = {0x387, 0, 0, 0x1f, 0xffffffff, 0x5f, 0xffff, 0xffff, 0x3333, 0, 0xffff};
    bool is_count = offset == 0x24 || offset == 0x2c || (offset >= 0x34 && offset <= 0x40);
    return is_count ? most_of(timer) : offset <= 0x28 ? bits[offset / 4] : 0;
}

void timers_store(int which, uint32_t offset, uint32_t value) {
    struct timer *timer = &timers[which];
    if ((value & ~modelled_bits(timer, offset)) != 0) {
        violation("register %02x of a timer: %x is reserved, or isn't modelled", (unsigned)offset, (unsigned)value);
        return;
    }
    go_on(timer);
    switch (offset) {
    case 0x00: timer->cr1 = value; break;
    case 0x0c: timer->dier = value; break;
    case 0x10: timer->sr &= value; break; /* cleared by zeros */
    case 0x14: generate(timer, value); break;
    case 0x18: case 0x1c: timer->ccmr[(offset - 0x18) / 4] = value; break;
    case 0x20: timer->ccer = value; break;
    case 0x24: timer->cnt = value; timer->since = chip.now; break;
    case 0x28: timer->psc = value; break; /* in force from the next update on */
    case 0x2c:
        timer->arr = value;
        timer->arr_now = (timer->cr1 & CR1_ARR_PRELOADED) == 0 ? value : timer->arr_now;
        break;
    case 0x34: case 0x38: case 0x3c: case 0x40: store_compare(timer, (int)(offset - 0x34) / 4, value); break;
    default: break;
    }
    timers_note_duty();
    arm(which);
}
