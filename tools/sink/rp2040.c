/* A port for an RP2040 at 128 MHz with a crystal of 12 MHz and a flash of 2 MB, as a Raspberry Pi Pico has them. It
 * needs no library: docs/SINK.md has its wires. Registers and bits have the numbers of the RP2040's datasheet.
 *
 * The chip's TIMER counts microseconds, which are eight ticks. So two slices of the PWM count 128 MHz / 16, which are
 * ticks: one goes on for ever and says what time it is, the other is set so that it turns over, and interrupts, when
 * sink_make is due. All code runs in RAM, where each instruction takes the same time: the flash would have the timer
 * wait for microseconds. The second core sleeps, as the ROM leaves it. */
#include "rp2040.h"

#include <stdbool.h>

#include "rp2040_boots.h"
#include "sink.h"
#include "sink_port.h"

enum {
    PIN_OUT = 0, PIN_IN = 1,     /* the line */
    STEP_X = 2, DOWN_X = 3, STEP_Y = 4, DOWN_Y = 5, STEP_Z = 6, DOWN_Z = 7,
    CLOCKWISE = 8, COUNTER = 9, SPEED = 10, MIST = 11, FLOOD = 12,
    INPUTS = 13,                 /* and the seven behind it */
    TIME = 7, ALARM = 6,         /* slices of the PWM, whose pins aren't used .. */
    SPINDLE = SPEED / 2,         /* .. and that of the spindle's speed */
    TICK_DIVISOR = 16,           /* 128 MHz / 16 = 8 MHz */
    BAUD_DIVISOR = 4,            /* 128 MHz / 16 / 4 = 2,000,000 baud */
    RECEIVED_POWER = 10,
    RECEIVED = 1 << RECEIVED_POWER, /* bytes: 5 ms */
    DIRECTION_TICKS = 41,        /* 5 us from a direction to its step, and one tick, as the first one is a part */
    STEP_TICKS = 17,             /* 2 us that a step's pin is high, and one tick */
    MOST_LATE_TICKS = 240,       /* 30 us that words may be late, and are made up for */
    APART_TICKS = 80,            /* 10 us for the main loop, before a word that is later */
    PWM_STEPS = 12800,           /* 10 kHz */
    SPINDLE_MOST_RPM = 24000,    /* at the whole of the PWM */
    WATCHDOG_COUNT = 200000,     /* 100 ms: it counts by two each microsecond (erratum RP2040-E1) */
    PWM_INTERRUPT = 4,
    SENDS = 1, RECEIVES = 0,     /* channels of the DMA */
    STEP_PINS = 1 << STEP_X | 1 << STEP_Y | 1 << STEP_Z,
    DOWN_PINS = 1 << DOWN_X | 1 << DOWN_Y | 1 << DOWN_Z,
    SWITCH_PINS = 1 << CLOCKWISE | 1 << COUNTER | 1 << MIST | 1 << FLOOD,
    USED = 1 << 22 | 1 << 21 | 1 << 14 | 1 << 12 | 1 << 8 | 1 << 5 | 1 << 2 /* of RESETS: UART0, TIMER, PWM, PLL_SYS,
                                                                             * PADS_BANK0, IO_BANK0, DMA */
};

static struct sink sink;
static uint16_t due;         /* of the slice TIME, when sink_make is due */
static uint8_t directions;   /* as the pins have them: 1 counts down */
static volatile uint8_t received[RECEIVED] __attribute__((aligned(RECEIVED)));
static uint32_t read_to;     /* in `received`, where the next byte is */
static uint8_t to_send[WIRE_LINE];

static uint16_t ticks_now(void) {
    return (uint16_t)PWM_CTR(TIME);
}

/* Has the alarm turn over at `due`: it counts what the time does, so that it is 0 then. A tick that passes between load
 * and store makes it a tick late. */
static void set_alarm(void) {
    PWM_CTR(ALARM) = (PWM_CTR(TIME) - due) & 0xffff;
    PWM_INTR = 1u << ALARM;
}

void sink_port_timer(uint32_t ticks) {
    due = (uint16_t)(ticks_now() + ticks);
    set_alarm();
    PWM_INTE = 1u << ALARM;
}

static bool is_due(void) {
    return (uint16_t)(due - ticks_now() - 1) >= 0x8000;
}

/* Says when the next word is due. Words that are shorter than this handler are made later, and those behind make up for
 * it; but for no more than MOST_LATE_TICKS, or they would come as fast as the handler can long after that, whatever
 * their own times are. */
static void set_due(uint32_t after) {
    uint16_t now = ticks_now();
    due = (uint16_t)(due + after);
    uint16_t late = (uint16_t)(now - due);
    if (late > MOST_LATE_TICKS && late < 0x8000) {
        due = (uint16_t)(now + APART_TICKS);
    }
    set_alarm();
}

/* A word that is due already, as after a change of direction, is made at once. The counter says whether one is, not the
 * interrupt: the alarm may turn over while this works, where the word is made here, and its flag cleared. */
static void timer_handler(void) {
    uint32_t after = 1;
    PWM_INTR = 1u << ALARM;
    while (after > 0 && PWM_INTE != 0 && is_due()) {
        after = sink_make(&sink);
        set_due(after);
    }
    PWM_INTE = after > 0 ? PWM_INTE : 0;
}

static void pause_ticks(uint16_t ticks) {
    uint16_t from = ticks_now();
    while ((uint16_t)(ticks_now() - from) < ticks) {
    }
}

/* Bits 0, 1, 2 as pins 0, 2, 4. */
static uint32_t spread(uint32_t axes) {
    return (axes & 1) | (axes & 2) << 1 | (axes & 4) << 2;
}

/* The duty of a speed in millionths, below 2^44: by a multiplication, as a division of 64 bits keeps the timer's
 * handler for long. Of the speed a 256th part is taken; what that cuts off is less than what is added. */
static uint64_t duty_of(uint64_t speed) {
    const uint64_t most = SPINDLE_MOST_RPM * UINT64_C(1000000);
    const uint64_t times = ((UINT64_C(256) * PWM_STEPS << 36) + most - 1) / most;
    return ((speed >> 8) * times + (1u << 24)) >> 36;
}

static void set_outputs(const struct sink_outputs *outputs) {
    uint64_t duty = duty_of(outputs->speed);
    uint32_t on = outputs->spindle == 1 ? 1u << CLOCKWISE : 0;
    on |= outputs->spindle == 2 ? 1u << COUNTER : 0;
    on |= outputs->mist != 0 ? 1u << MIST : 0;
    on |= outputs->flood != 0 ? 1u << FLOOD : 0;
    PWM_CC(SPINDLE) = outputs->spindle == 0 ? 0 : duty < PWM_STEPS ? (uint32_t)duty : PWM_STEPS;
    SIO_OUT_CLEAR = SWITCH_PINS & ~on;
    SIO_OUT_SET = on;
}

void sink_port_pins(uint8_t steps, uint8_t down, const struct sink_outputs *outputs) {
    if (outputs != NULL) {
        set_outputs(outputs);
    }
    if (steps == 0) {
        return;
    }
    uint8_t wanted = (uint8_t)((directions & ~steps) | (down & steps)); /* an axis that doesn't step keeps its own */
    if (wanted != directions) {
        directions = wanted;
        SIO_OUT_CLEAR = DOWN_PINS & ~(spread(wanted) << DOWN_X);
        SIO_OUT_SET = spread(wanted) << DOWN_X;
        pause_ticks(DIRECTION_TICKS);
    }
    SIO_OUT_SET = spread(steps) << STEP_X;
    pause_ticks(STEP_TICKS);
    SIO_OUT_CLEAR = STEP_PINS;
}

uint16_t sink_port_inputs(void) {
    return (uint16_t)(SIO_IN >> INPUTS & 0xff);
}

int sink_port_read(void) {
    if (read_to == DMA_WRITE(RECEIVES) % RECEIVED) {
        return -1;
    }
    uint8_t byte = received[read_to];
    read_to = (read_to + 1) % RECEIVED;
    return byte;
}

static bool is_busy(uint32_t channel) {
    return (DMA_CTRL(channel) & 1u << 24) != 0;
}

void sink_port_write(const uint8_t *bytes, size_t size) {
    if (is_busy(SENDS)) {
        return;
    }
    for (size_t at = 0; at < size; at++) {
        ((volatile uint8_t *)to_send)[at] = bytes[at];
    }
    DMA_READ(SENDS) = (uint32_t)(uintptr_t)to_send;
    DMA_WRITE(SENDS) = UART0_DR;
    DMA_COUNT(SENDS) = size;
    DMA_CTRL(SENDS) = 20u << 15 | (uint32_t)SENDS << 11 | 1u << 4 | 1; /* as UART0 asks, from memory, by bytes, on */
}

void sink_port_watchdog(void) {
    WATCHDOG_LOAD = WATCHDOG_COUNT;
}

/* All outputs low before they are outputs; pull-ups at the inputs. */
static void begin_pins(void) {
    SIO_OUT = 0;
    SIO_OE_SET = STEP_PINS | DOWN_PINS | SWITCH_PINS;
    for (uint32_t pin = STEP_X; pin <= FLOOD; pin++) {
        IO_CTRL(pin) = pin == SPEED ? 4 : 5; /* a slice of the PWM, or SIO */
    }
    for (uint32_t pin = INPUTS; pin < INPUTS + 8; pin++) {
        PADS(pin) = 0x5a;
        IO_CTRL(pin) = 5;
    }
    PADS(PIN_IN) = 0x5a;
    IO_CTRL(PIN_OUT) = 2;
    IO_CTRL(PIN_IN) = 2;
}

/* Bytes are received round and round; the count is enough for six hours, then the main loop begins it again. */
static void begin_line(void) {
    UART0_IBRD = BAUD_DIVISOR;
    UART0_FBRD = 0;
    UART0_LCR_H = 0x70; /* 8 bits, FIFOs */
    UART0_CR = 0x301;
    UART0_DMACR = 3;
    DMA_READ(RECEIVES) = UART0_DR;
    DMA_WRITE(RECEIVES) = (uint32_t)(uintptr_t)received;
    DMA_COUNT(RECEIVES) = 0xffffffff;
    DMA_CTRL(RECEIVES) = 21u << 15 | (uint32_t)RECEIVES << 11 | 1u << 10 | RECEIVED_POWER << 6 | 1u << 5 | 1;
}

static void begin_timers(void) {
    PWM_DIV(TIME) = TICK_DIVISOR << 4;
    PWM_DIV(ALARM) = TICK_DIVISOR << 4;
    PWM_TOP(SPINDLE) = PWM_STEPS - 1;
    PWM_EN = 1u << TIME | 1u << ALARM | 1u << SPINDLE;
    NVIC_ISER = 1u << PWM_INTERRUPT;
    PSM_WDSEL = 0x1fffc; /* all but the oscillators start again with the watchdog */
    WATCHDOG_LOAD = WATCHDOG_COUNT;
    WATCHDOG_CTRL = 1u << 30;
}

int main(void);

int main(void) {
    begin_pins();
    uint16_t boot = boots_count();
    begin_line();
    begin_timers();
    sink_start(&sink, boot, TIMER_RAWL * 8);
    while (true) {
        sink_poll(&sink, TIMER_RAWL * 8);
        if (!is_busy(RECEIVES)) {
            DMA_AGAIN(RECEIVES) = 0xffffffff;
        }
    }
}

/* What the linker places. The words are volatile, or copying them would be memcpy, which isn't there yet. */
extern volatile uint32_t program_from[], program_begin[], program_end[], bss_begin[], bss_end[];
extern uint32_t stack_top[];
extern const struct vectors vectors;

#define IN_FLASH __attribute__((section(".start"), noinline))

/* 128 MHz for core, UART and PWM: the crystal times 128, by 6 and by 2. The watchdog and TIMER count microseconds of
 * the crystal. */
IN_FLASH static void begin_clock(void) {
    XOSC_STARTUP = 188; /* times 256 of its cycles: 4 ms */
    XOSC_CTRL = 0xfab << 12 | 0xaa0;
    while ((XOSC_STATUS & 1u << 31) == 0) {
    }
    RESETS_CLEAR = USED;
    while ((RESETS_DONE & USED) != USED) {
    }
    PLL_CS = 1;
    PLL_FBDIV_INT = 128;
    PLL_PWR = 0x0c; /* its oscillator, without the dividers */
    while ((PLL_CS & 1u << 31) == 0) {
    }
    PLL_PRIM = 6u << 16 | 2u << 12;
    PLL_PWR = 0x04;
    CLK_REF_CTRL = 2;
    while (CLK_REF_SELECTED != 1u << 2) {
    }
    CLK_SYS_CTRL = 1;
    while (CLK_SYS_SELECTED != 1u << 1) {
    }
    CLK_PERI_CTRL = 1u << 11;
    WATCHDOG_TICK = 1u << 9 | 12;
}

IN_FLASH static void start(void) {
    int (*const goes_on)(void) = main;
    begin_clock();
    for (uint32_t at = 0; &program_begin[at] != program_end; at++) {
        program_begin[at] = program_from[at];
    }
    for (uint32_t at = 0; &bss_begin[at] != bss_end; at++) {
        bss_begin[at] = 0;
    }
    VTOR = (uint32_t)(uintptr_t)&vectors;
    goes_on();
}

/* A fault of the chip: the watchdog starts it again. */
static void hang(void) {
    while (true) {
    }
}

struct vectors {
    uint32_t *stack;
    void (*reset)(void);
    void (*faults[14])(void);
    void (*interrupts[PWM_INTERRUPT + 1])(void);
};

const struct vectors vectors __attribute__((section(".vectors"), used, aligned(256))) = {
    stack_top, start,
    {hang, hang, hang, hang, hang, hang, hang, hang, hang, hang, hang, hang, hang, hang},
    {[PWM_INTERRUPT] = timer_handler}};

/* With which the boot block begins: nothing else comes before the program is in RAM. */
const struct {
    uint32_t *stack;
    void (*start)(void);
} start_vectors __attribute__((section(".start_vectors"), used)) = {stack_top, start};
