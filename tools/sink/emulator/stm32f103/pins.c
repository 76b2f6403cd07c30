#include "pins.h"

#include "chip.h"
#include "serial.h"
#include "timers.h"
#include "told.h"
#include "usart.h"

enum { PINS = 16, MODE_FLOATS = 4, MODE_PULLED = 8 };

static struct port {
    uint32_t modes[2]; /* CRL, CRH */
    uint32_t odr;
    uint32_t open;     /* contacts: 1 where one is open */
    uint16_t levels;   /* as they were told */
} ports[PORTS];
static uint32_t mapr;
static uint32_t duty_told;

static uint32_t mode_of(const struct port *port, int pin) {
    return port->modes[pin / 8] >> 4 * (pin % 8) & 15;
}

static bool is_output(uint32_t mode) {
    return (mode & 3) != 0;
}

/* What a drive sees at pins that have 10 kilohms to ground: only what is pushed up is high. */
static uint16_t levels_of(const struct port *port) {
    uint16_t levels = 0;
    for (int pin = 0; pin < PINS; pin++) {
        uint32_t mode = mode_of(port, pin);
        bool is_pushed = is_output(mode) && (mode & 0xc) == 0; /* general purpose, push-pull */
        levels |= (uint16_t)((is_pushed && (port->odr >> pin & 1) != 0) << pin);
    }
    return levels;
}

static void tell_levels(int which) {
    uint16_t levels = levels_of(&ports[which]);
    uint16_t changed = levels ^ ports[which].levels;
    ports[which].levels = levels;
    for (uint32_t left = changed; left != 0; left &= left - 1) {
        int pin = __builtin_ctz(left);
        told_note((uint8_t)('A' + which), (uint8_t)pin, levels >> pin & 1u);
    }
}

void pins_note_duty(uint32_t duty) {
    if (duty != duty_told) {
        duty_told = duty;
        told_note('P', 6, duty);
    }
}

void pins_turn(int port, int pin, bool is_open) {
    ports[port].open = (ports[port].open & ~(1u << pin)) | (uint32_t)is_open << pin;
}

static bool is_output_of_peripheral(struct pin pin) {
    uint32_t mode = mode_of(&ports[pin.port - 'A'], pin.number);
    return is_output(mode) && (mode & 0xc) == 8;
}

bool pins_is_output_of_line(struct pin pin) {
    return is_output_of_peripheral(pin);
}

bool pins_is_output_of_timer(struct pin pin) {
    return is_output_of_peripheral(pin);
}

bool pins_is_input_of_line(struct pin pin) {
    const struct port *port = &ports[pin.port - 'A'];
    uint32_t mode = mode_of(port, pin.number);
    return mode == MODE_FLOATS || (mode == MODE_PULLED && (port->odr >> pin.number & 1) != 0);
}

void pins_reset(void) {
    for (int port = 0; port < PORTS; port++) {
        ports[port].modes[0] = ports[port].modes[1] = 0x44444444;
        ports[port].odr = 0;
        tell_levels(port);
    }
    mapr = 0;
    pins_note_duty(0);
}

/* A pin as it is read. One that floats has chance values while its contact is open. */
static bool read_pin(const struct port *port, int pin) {
    static uint32_t chance = 1;
    uint32_t mode = mode_of(port, pin);
    bool is_open = (port->open >> pin & 1) != 0;
    if (is_output(mode)) {
        return (port->levels >> pin & 1) != 0;
    }
    if (mode == MODE_PULLED) {
        return is_open && (port->odr >> pin & 1) != 0;
    }
    chance = chance * 1664525 + 1013904223;
    return is_open && mode == MODE_FLOATS && chance >> 31 != 0;
}

static uint32_t read_pins(const struct port *port) {
    uint32_t levels = 0;
    for (int pin = 0; pin < PINS; pin++) {
        levels |= (uint32_t)read_pin(port, pin) << pin;
    }
    return levels;
}

uint32_t pins_load(int port, uint32_t offset) {
    switch (offset) {
    case 0x00: case 0x04: return ports[port].modes[offset / 4];
    case 0x08: return read_pins(&ports[port]);
    case 0x0c: return ports[port].odr;
    default: violation("register %02x of a port is read", (unsigned)offset); return 0;
    }
}

void pins_store(int port, uint32_t offset, uint32_t value) {
    struct port *to = &ports[port];
    if ((offset == 0x0c || offset == 0x14) && value > 0xffff) {
        violation("reserved bits of register %02x of a port: %x", (unsigned)offset, (unsigned)value);
    }
    switch (offset) {
    case 0x00: case 0x04: to->modes[offset / 4] = value; break;
    case 0x0c: to->odr = value; break;
    case 0x10: to->odr = (to->odr & ~(value >> 16)) | (value & 0xffff); break; /* where both are 1, set wins */
    case 0x14: to->odr &= ~value; break;
    default: violation("a store to register %02x of a port", (unsigned)offset); break;
    }
    tell_levels(port);
    timers_note_duty();
    if (port == PORT_A && offset < 8) {
        usart_receives();
    }
}

uint32_t pins_load_functions(uint32_t offset) {
    return offset == 4 ? mapr : 0;
}

void pins_store_functions(uint32_t offset, uint32_t value) {
    if (offset != 4 || (value & ~0x07000000u) != 0) {
        violation("AFIO's register %02x: %x isn't modelled", (unsigned)offset, (unsigned)value);
    }
    mapr = value;
}
