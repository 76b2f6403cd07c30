/* A port for chips of ST, without a library: steps, outputs, inputs and line, as stm32f103.c and stm32f411.c begin
 * them. docs/SINK.md has the wires. */
#include "stm32.h"

#include "sink.h"
#include "sink_port.h"

enum {
    DIRECTION_TICKS = 40,  /* 5 us from a direction to its step */
    STEP_TICKS = 16,       /* 2 us that a step's pin is high */
    MOST_LATE_TICKS = 240, /* 30 us that words may be late, and are made up for */
    APART_TICKS = 80       /* 10 us for the main loop, before a word that is later */
};

static struct sink sink;
static timer_ticks due;      /* of TIM2, when sink_make is due */
static uint8_t directions;   /* as the pins have them: 1 counts down */
static uint32_t read_to;     /* in `received`, where the next byte is */
static uint8_t to_send[WIRE_LINE];
volatile uint8_t received[RECEIVED];

void sink_port_timer(uint32_t ticks) {
    due = (timer_ticks)(TIM2_CNT + ticks);
    TIM2_CCR1 = due;
    TIM2_SR = (uint32_t)~COMPARED;
    TIM2_DIER = COMPARED;
}

static bool is_due(void) {
    return (timer_ticks)(due - TIM2_CNT - 1) >= HALF_TURN;
}

/* Says when the next word is due. Words that are shorter than this handler are made later, and those behind make up for
 * it; but for no more than MOST_LATE_TICKS, or they would come as fast as the handler can long after that, whatever
 * their own times are. */
static void set_due(uint32_t after) {
    timer_ticks now = (timer_ticks)TIM2_CNT;
    due = (timer_ticks)(due + after);
    timer_ticks late = (timer_ticks)(now - due);
    if (late > MOST_LATE_TICKS && late < HALF_TURN) {
        due = (timer_ticks)(now + APART_TICKS);
    }
    TIM2_CCR1 = due;
    TIM2_SR = (uint32_t)~COMPARED;
}

/* A word that is due already, as after a change of direction, is made at once. The counter says whether one is, not the
 * interrupt: a match while this works leaves one pending even where its word is made here, and its flag cleared. */
void timer_handler(void) {
    uint32_t after = 1;
    TIM2_SR = (uint32_t)~COMPARED;
    while (after > 0 && (TIM2_DIER & COMPARED) != 0 && is_due()) {
        after = sink_make(&sink);
        set_due(after);
    }
    TIM2_DIER = after > 0 ? TIM2_DIER : 0;
}

static void pause_ticks(timer_ticks ticks) {
    timer_ticks from = (timer_ticks)TIM2_CNT;
    while ((timer_ticks)(TIM2_CNT - from) < ticks) {
    }
}

static inline uint32_t bit_of(int port, int pin) {
    return pin / 16 == port ? 1u << pin % 16 : 0;
}

/* The pins of a port, 0 for A, that these axes have: the compiler knows all but the axes. */
static inline uint32_t spread(int port, uint32_t axes, int x, int y, int z) {
    return (x / 16 == port ? (axes & 1) << x % 16 : 0) | (y / 16 == port ? (axes >> 1 & 1) << y % 16 : 0)
        | (z / 16 == port ? (axes >> 2 & 1) << z % 16 : 0);
}

/* A port's pins as its BSRR sets and clears them: where it is asked for both, it sets. */
static inline void write_pins(int port, uint32_t set, uint32_t cleared) {
    uint32_t bits = set | cleared << 16;
    if (port == 0) {
        A_BSRR = bits;
    } else if (port == 1) {
        B_BSRR = bits;
    } else {
        C_BSRR = bits;
    }
}

static inline void set_steps(int port, uint32_t axes) {
    if (spread(port, 7, X_STEP, Y_STEP, Z_STEP) != 0) {
        write_pins(port, spread(port, axes, X_STEP, Y_STEP, Z_STEP), 0);
    }
}

static inline void clear_steps(int port) {
    uint32_t all = spread(port, 7, X_STEP, Y_STEP, Z_STEP);
    if (all != 0) {
        write_pins(port, 0, all);
    }
}

static inline void set_directions(int port, uint32_t down) {
    uint32_t all = spread(port, 7, X_DIRECTION, Y_DIRECTION, Z_DIRECTION);
    if (all != 0) {
        write_pins(port, spread(port, down, X_DIRECTION, Y_DIRECTION, Z_DIRECTION), all);
    }
}

/* The duty of a speed in millionths, below 2^44: by a multiplication, as a division of 64 bits keeps the timer's
 * handler for 10 us. Of the speed a 256th part is taken; what that cuts off is less than what is added. */
static uint64_t duty_of(uint64_t speed) {
    const uint64_t most = SPINDLE_MOST_RPM * UINT64_C(1000000);
    const uint64_t times = ((UINT64_C(256) * PWM_STEPS << 36) + most - 1) / most;
    return ((speed >> 8) * times + (1u << 24)) >> 36;
}

/* The two directions of the spindle have pins of one port, so that they change at once. */
_Static_assert(CLOCKWISE / 16 == COUNTER / 16, "CLOCKWISE and COUNTER are pins of two ports");

static inline void switch_port(int port, const struct sink_outputs *outputs) {
    uint32_t on = outputs->spindle == 1 ? bit_of(port, CLOCKWISE) : 0;
    uint32_t all = bit_of(port, CLOCKWISE) | bit_of(port, COUNTER) | bit_of(port, MIST) | bit_of(port, FLOOD);
    on |= outputs->spindle == 2 ? bit_of(port, COUNTER) : 0;
    on |= outputs->mist != 0 ? bit_of(port, MIST) : 0;
    on |= outputs->flood != 0 ? bit_of(port, FLOOD) : 0;
    if (all != 0) {
        write_pins(port, on, all);
    }
}

static void set_outputs(const struct sink_outputs *outputs) {
    uint64_t duty = duty_of(outputs->speed);
    PWM_DUTY = outputs->spindle == 0 ? 0 : duty < PWM_STEPS ? (uint32_t)duty : PWM_STEPS;
    switch_port(0, outputs);
    switch_port(1, outputs);
    switch_port(2, outputs);
}

void sink_port_pins(uint8_t steps, uint8_t down, const struct sink_outputs *outputs) {
    if (outputs != NULL) {
        set_outputs(outputs);
    }
    if (steps == 0) {
        return;
    }
    uint8_t wanted = (uint8_t)((directions & ~steps) | (down & steps)); /* an axis that doesn't step keeps its own */
    if (wanted != directions) {
        directions = wanted;
        set_directions(0, wanted);
        set_directions(1, wanted);
        pause_ticks(DIRECTION_TICKS);
    }
    set_steps(0, steps);
    set_steps(1, steps);
    pause_ticks(STEP_TICKS);
    clear_steps(0);
    clear_steps(1);
}

#ifdef INPUTS_BY_PINS
static const uint8_t inputs[] = {INPUT_PINS};

static inline uint32_t input(uint32_t a, uint32_t b, uint32_t c, int which) {
    uint32_t port = inputs[which] / 16 == 0 ? a : inputs[which] / 16 == 1 ? b : c;
    return (port >> inputs[which] % 16 & 1) << which;
}

static inline bool is_of(int port, int which) {
    return inputs[which] / 16 == port;
}

static inline bool are_of(int port) {
    return is_of(port, 0) || is_of(port, 1) || is_of(port, 2) || is_of(port, 3) || is_of(port, 4) || is_of(port, 5)
        || is_of(port, 6) || is_of(port, 7);
}

/* Of a port that has no input its clock may be off. */
static uint32_t inputs_of_pins(void) {
    uint32_t a = are_of(0) ? A_IDR : 0;
    uint32_t b = are_of(1) ? B_IDR : 0;
    uint32_t c = are_of(2) ? C_IDR : 0;
    return input(a, b, c, 0) | input(a, b, c, 1) | input(a, b, c, 2) | input(a, b, c, 3) | input(a, b, c, 4)
        | input(a, b, c, 5) | input(a, b, c, 6) | input(a, b, c, 7);
}
#endif

uint16_t sink_port_inputs(void) {
    return (uint16_t)(INPUTS);
}

int sink_port_read(void) {
    uint32_t end = RECEIVED - RECEIVED_LEFT;
    if (read_to == end % RECEIVED) {
        return -1;
    }
    uint8_t byte = received[read_to];
    read_to = (read_to + 1) % RECEIVED;
    return byte;
}

void sink_port_write(const uint8_t *bytes, size_t size) {
    if (SEND_LEFT != 0) {
        return;
    }
    for (size_t at = 0; at < size; at++) {
        ((volatile uint8_t *)to_send)[at] = bytes[at];
    }
    stm32_send(to_send, size);
}

void sink_port_watchdog(void) {
    IWDG_KR = 0xaaaa;
}

static void begin_timers(void) {
    TIM2_PSC = TICK_DIVISOR - 1;
    TIM2_ARR = (timer_ticks)-1;
    TIM2_EGR = 1;
    TIM2_CR1 = 1;
    NVIC_ISER0 = 1u << TIM2_INTERRUPT;
    IWDG_KR = 0x5555;
    IWDG_PR = 0;
    IWDG_RLR = WATCHDOG_TURNS; /* some 100 ms */
    IWDG_KR = 0xcccc;
}

int main(void) {
    uint32_t now = 0;
    timer_ticks last = 0;
    uint16_t boot = stm32_begin();
    begin_timers();
    sink_start(&sink, boot, now);
    while (true) {
        timer_ticks count = (timer_ticks)TIM2_CNT;
        now += (timer_ticks)(count - last);
        last = count;
        sink_poll(&sink, now);
    }
}

/* What the linker places. */
extern uint32_t data_from[], data_begin[], data_end[], bss_begin[], bss_end[], vectors_begin[];

static void copy_words(uint32_t *to, const uint32_t *end, const uint32_t *from) {
    while (to != end) {
        *to = *from;
        to++;
        from++;
    }
}

static void clear_words(uint32_t *to, const uint32_t *end) {
    while (to != end) {
        *to = 0;
        to++;
    }
}

/* Behind a bootloader the vectors aren't where the chip looks for them. */
void start(void) {
    SCB_VTOR = (uint32_t)(uintptr_t)vectors_begin;
    copy_words(data_begin, data_end, data_from);
    clear_words(bss_begin, bss_end);
    main();
}

/* A fault of the chip: the watchdog starts it again. */
void hang(void) {
    while (true) {
    }
}
