#include "pins.h"

#include "addresses.h"
#include "chip.h"
#include "pwm.h"
#include "told.h"
#include "uart.h"

enum { FUNCTION_NONE = 31, PAD_RESET = 0x56, PAD_OFF = 0x80, PAD_SEES = 0x40, PAD_UP = 8, PAD_DOWN = 4 };
enum { ALL = (1 << PINS) - 1 };

static struct {
    uint8_t function[PINS];
    uint8_t pad[PINS];
    uint32_t out, enabled;  /* of SIO */
    uint32_t open;          /* contacts: 1 where one is open */
    uint32_t levels;        /* as they were told */
    uint32_t duties[PINS];
} pins;

bool pins_drives(uint32_t pin, uint32_t function) {
    return pins.function[pin] == function && (pins.pad[pin] & PAD_OFF) == 0;
}

bool pins_sees(uint32_t pin, uint32_t function) {
    return pins.function[pin] == function && (pins.pad[pin] & PAD_SEES) != 0;
}

/* What a drive sees at pins that have 10 kilohms to ground: only what is pushed up is high. */
static uint32_t levels_of(void) {
    uint32_t levels = 0;
    for (uint32_t pin = 0; pin < PINS; pin++) {
        levels |= (uint32_t)pins_drives(pin, PIN_OF_SIO) << pin;
    }
    return levels & pins.out & pins.enabled;
}

static void tell_levels(void) {
    uint32_t levels = levels_of();
    uint32_t changed = levels ^ pins.levels;
    pins.levels = levels;
    for (uint32_t left = changed; left != 0; left &= left - 1) {
        uint32_t pin = (uint32_t)__builtin_ctz(left);
        told_note('A', (uint8_t)pin, levels >> pin & 1);
    }
}

void pins_note_duty(uint32_t pin, uint32_t duty) {
    if (pins.duties[pin] != duty) {
        pins.duties[pin] = duty;
        told_note('P', (uint8_t)pin, duty);
    }
}

void pins_turn(uint32_t pin, bool is_open) {
    pins.open = (pins.open & ~(1u << pin)) | (uint32_t)is_open << pin;
}

void pins_reset_banks(void) {
    for (uint32_t pin = 0; pin < PINS; pin++) {
        pins.function[pin] = FUNCTION_NONE;
        pins.pad[pin] = PAD_RESET;
        pins_note_duty(pin, 0);
    }
    tell_levels();
}

void pins_reset(void) {
    pins.out = pins.enabled = 0;
    pins_reset_banks();
}

/* A pin as it is read. One that floats has chance values while its contact is open. */
static bool read_pin(uint32_t pin) {
    static uint32_t chance = 1;
    bool is_open = (pins.open >> pin & 1) != 0;
    uint32_t pulls = pins.pad[pin] & (PAD_UP | PAD_DOWN);
    if ((pins.pad[pin] & PAD_SEES) == 0) {
        return false;
    }
    if (pins_drives(pin, PIN_OF_SIO) && (pins.enabled >> pin & 1) != 0) {
        return (pins.out >> pin & 1) != 0;
    }
    chance = chance * 1664525 + 1013904223;
    return is_open && (pulls == PAD_UP || (pulls == 0 && chance >> 31 != 0));
}

static uint32_t read_pins(void) {
    uint32_t levels = 0;
    for (uint32_t pin = 0; pin < PINS; pin++) {
        levels |= (uint32_t)read_pin(pin) << pin;
    }
    return levels;
}

uint32_t pins_load(uint32_t base, uint32_t offset) {
    uint32_t pin = base == AT_IO_BANK0 ? offset / 8 : offset / 4 - 1;
    switch (base | offset) {
    case AT_SIO: return 0; /* the first core */
    case AT_SIO | 0x04: return read_pins();
    case AT_SIO | 0x10: return pins.out;
    case AT_SIO | 0x20: return pins.enabled;
    default: break;
    }
    if (base == AT_SIO || pin >= PINS || (base == AT_IO_BANK0 && (offset & 4) == 0)) {
        violation("a load of %08x isn't modelled", (unsigned)(base | offset));
        return 0;
    }
    return base == AT_IO_BANK0 ? pins.function[pin] : pins.pad[pin];
}

/* Of three registers one is to a value, the next set and cleared by ones, and then turned. */
static uint32_t changed(uint32_t was, uint32_t how, uint32_t value) {
    switch (how) {
    case 0: return value;
    case 4: return was | value;
    case 8: return was & ~value;
    default: return was ^ value;
    }
}

static void store_sio(uint32_t offset, uint32_t value) {
    if ((value & ~(uint32_t)ALL) != 0) {
        violation("reserved bits of register %03x of SIO: %x", (unsigned)offset, (unsigned)value);
    }
    if (offset >= 0x10 && offset < 0x20) {
        pins.out = changed(pins.out, offset - 0x10, value);
    } else if (offset >= 0x20 && offset < 0x30) {
        pins.enabled = changed(pins.enabled, offset - 0x20, value);
    } else {
        violation("register %03x of SIO isn't modelled", (unsigned)offset);
    }
}

static void store_banks(uint32_t base, uint32_t offset, uint32_t value) {
    uint32_t pin = base == AT_IO_BANK0 ? offset / 8 : offset / 4 - 1;
    uint32_t most = base == AT_IO_BANK0 ? 31 : 0xff;
    if (pin >= PINS || value > most || (base == AT_IO_BANK0 && (offset & 4) == 0)) {
        violation("a store of %x to %08x isn't modelled", (unsigned)value, (unsigned)(base | offset));
        return;
    }
    if (base == AT_IO_BANK0) {
        pins.function[pin] = (uint8_t)value;
    } else {
        pins.pad[pin] = (uint8_t)value;
    }
    pwm_note_duties();
    uart_receives();
}

void pins_store(uint32_t base, uint32_t offset, uint32_t value) {
    if (base == AT_SIO) {
        store_sio(offset, value);
    } else {
        store_banks(base, offset, value);
    }
    tell_levels();
}
