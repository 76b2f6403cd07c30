#include "pins.h"

#include <string.h>

#include "chip.h"
#include "timers.h"
#include "told.h"
#include "usart.h"

enum { PINS = 16 };
enum { INPUT, OUTPUT, OF_PERIPHERAL, ANALOG }; /* of MODER */
enum { PULL_NONE, PULL_UP, PULL_DOWN };        /* of PUPDR */
enum { OF_TIMERS_3_TO_5 = 2, OF_USARTS_1_TO_2 = 7 };

static struct port {
    uint32_t moder, otyper, ospeedr, pupdr, odr;
    uint32_t afr[2];
    uint32_t open;   /* contacts: 1 where one is open */
    uint16_t levels; /* as they were told */
} ports[PORTS];
static uint32_t duty_told;

static uint32_t mode_of(const struct port *port, int pin) {
    return port->moder >> 2 * pin & 3;
}

static uint32_t pull_of(const struct port *port, int pin) {
    return port->pupdr >> 2 * pin & 3;
}

static uint32_t function_of(const struct port *port, int pin) {
    return port->afr[pin / 8] >> 4 * (pin % 8) & 15;
}

static bool is_push_pull(const struct port *port, int pin) {
    return (port->otyper >> pin & 1) == 0;
}

/* What a drive sees at pins that have 10 kilohms to ground: only what is pushed up is high. */
static uint16_t levels_of(const struct port *port) {
    uint32_t levels = 0;
    for (int pin = 0; pin < PINS; pin++) {
        bool is_pushed = mode_of(port, pin) == OUTPUT && is_push_pull(port, pin);
        levels |= (uint32_t)(is_pushed && (port->odr >> pin & 1) != 0) << pin;
    }
    return (uint16_t)levels;
}

static void tell_levels(int which) {
    uint16_t levels = levels_of(&ports[which]);
    uint16_t changed = levels ^ ports[which].levels;
    ports[which].levels = levels;
    for (uint32_t left = changed; left != 0; left &= left - 1) {
        int pin = __builtin_ctz(left);
        told_note((uint8_t)('A' + which), (uint8_t)pin, levels >> pin & 1u);
    }
}

void pins_note_duty(uint32_t duty) {
    if (duty != duty_told) {
        duty_told = duty;
        told_note('P', 0, duty);
    }
}

void pins_turn(int port, int pin, bool is_open) {
    ports[port].open = (ports[port].open & ~(1u << pin)) | (uint32_t)is_open << pin;
}

static bool has_function(struct pin pin, uint32_t function) {
    const struct port *port = &ports[pin.port - 'A'];
    return mode_of(port, pin.number) == OF_PERIPHERAL && function_of(port, pin.number) == function;
}

bool pins_is_output_of_line(struct pin pin) {
    return has_function(pin, OF_USARTS_1_TO_2) && is_push_pull(&ports[pin.port - 'A'], pin.number);
}

bool pins_is_output_of_timer(struct pin pin) {
    return has_function(pin, OF_TIMERS_3_TO_5) && is_push_pull(&ports[pin.port - 'A'], pin.number);
}

bool pins_is_input_of_line(struct pin pin) {
    return has_function(pin, OF_USARTS_1_TO_2) && pull_of(&ports[pin.port - 'A'], pin.number) != PULL_DOWN;
}

/* The pins of the debugger have functions after a reset: PA13 to PA15, PB3 and PB4. */
void pins_reset(void) {
    static const struct { uint32_t moder, ospeedr, pupdr; } first[PORTS] = {
        {0xa8000000, 0x0c000000, 0x64000000}, {0x00000280, 0x000000c0, 0x00000100}, {0, 0, 0}};
    for (int port = 0; port < PORTS; port++) {
        ports[port].moder = first[port].moder;
        ports[port].ospeedr = first[port].ospeedr;
        ports[port].pupdr = first[port].pupdr;
        ports[port].otyper = ports[port].odr = ports[port].afr[0] = ports[port].afr[1] = 0;
        tell_levels(port);
    }
    pins_note_duty(0);
}

/* A pin as it is read. One that floats has chance values while its contact is open; an analog one is 0. */
static bool read_pin(const struct port *port, int pin) {
    static uint32_t chance = 1;
    bool is_open = (port->open >> pin & 1) != 0;
    if (mode_of(port, pin) == OUTPUT) {
        return (port->levels >> pin & 1) != 0;
    }
    if (mode_of(port, pin) == ANALOG || !is_open || pull_of(port, pin) == PULL_DOWN) {
        return false;
    }
    chance = chance * 1664525 + 1013904223;
    return pull_of(port, pin) == PULL_UP || chance >> 31 != 0;
}

static uint32_t read_pins(const struct port *port) {
    uint32_t levels = 0;
    for (int pin = 0; pin < PINS; pin++) {
        levels |= (uint32_t)read_pin(port, pin) << pin;
    }
    return levels;
}

uint32_t pins_load(int which, uint32_t offset) {
    const struct port *port = &ports[which];
    switch (offset) {
    case 0x00: return port->moder;
    case 0x04: return port->otyper;
    case 0x08: return port->ospeedr;
    case 0x0c: return port->pupdr;
    case 0x10: return read_pins(port);
    case 0x14: return port->odr;
    case 0x20: case 0x24: return port->afr[(offset - 0x20) / 4];
    default: violation("register %02x of a port is read", (unsigned)offset); return 0;
    }
}

/* Two bits of PUPDR that are both 1 are reserved. */
static void check_pulls(uint32_t value) {
    if ((value & value >> 1 & 0x55555555) != 0) {
        violation("reserved bits of PUPDR: %x", (unsigned)value);
    }
}

void pins_store(int which, uint32_t offset, uint32_t size, uint32_t value) {
    struct port *port = &ports[which];
    if (size != 4 || ((offset == 0x04 || offset == 0x14) && value > 0xffff)) {
        violation("register %02x of a port: %x is reserved, or isn't modelled", (unsigned)offset, (unsigned)value);
    }
    switch (offset) {
    case 0x00: port->moder = value; break;
    case 0x04: port->otyper = value; break;
    case 0x08: port->ospeedr = value; break;
    case 0x0c: check_pulls(value); port->pupdr = value; break;
    case 0x14: port->odr = value; break;
    case 0x18: port->odr = (port->odr & ~(value >> 16)) | (value & 0xffff); break; /* where both are 1, set wins */
    case 0x20: case 0x24: port->afr[(offset - 0x20) / 4] = value; break;
    default: violation("a store to register %02x of a port", (unsigned)offset); break;
    }
    tell_levels(which);
    timers_note_duty();
    if (offset != 0x14 && offset != 0x18) {
        usart_receives();
    }
}
