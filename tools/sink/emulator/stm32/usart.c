#include "usart.h"

#include <string.h>

#include "chip.h"
#include "clocks.h"
#include "dma.h"
#include "line.h"
#include "nvic.h"
#include "pins.h"
#include "serial.h"
#include "told.h"

enum { SR_FRAMING = 2, SR_OVERRUN = 8, SR_ERRORS = 0xe, SR_READY = 0x20, SR_COMPLETE = 0x40, SR_EMPTY = 0x80 };
enum { CR1_RECEIVES = 4, CR1_SENDS = 8, CR1_ON = 0x2000, CR3_RECEIVES = 0x40, CR3_SENDS = 0x80 };
enum { LEAST_DIVISOR = 16 };

static struct {
    uint32_t sr, rdr, tdr, brr, cr1, cr2, cr3;
    bool has_read_sr;
    bool has_byte;    /* that waits for the shift register */
    uint64_t free_at; /* when that is free */
} usart;
struct usart_figures usart_figures;

uint64_t usart_baud(void) {
    return usart.brr != 0 ? clocks_bus_hz(line_of_board()->bus) / usart.brr : 0;
}

static uint64_t bit_units(void) {
    return usart.brr >= LEAST_DIVISOR ? usart.brr * (UNITS_A_SECOND / clocks_bus_hz(line_of_board()->bus)) : 0;
}

static bool is_on(uint32_t way) {
    return (usart.cr1 & (CR1_ON | way)) == (CR1_ON | way);
}

static void tell_line(void) {
    bool is_asked = (usart.sr & usart.cr1 & 0xf0) != 0 || ((usart.cr1 & 0x20) != 0 && (usart.sr & SR_OVERRUN) != 0);
    bool is_error = (usart.cr3 & 1) != 0 && (usart.cr3 & CR3_RECEIVES) != 0 && (usart.sr & SR_ERRORS) != 0;
    nvic_line(line_of_board()->irq, is_asked || is_error);
}

bool usart_requests(int way) {
    if (!clocks_has(line_of_board()->usart)) {
        return false;
    }
    return way == DMA_OUT ? (usart.cr3 & CR3_SENDS) != 0 && (usart.sr & SR_EMPTY) != 0 && is_on(CR1_SENDS)
                          : (usart.cr3 & CR3_RECEIVES) != 0 && (usart.sr & SR_READY) != 0;
}

/* Sends the byte that waits. */
static void send_byte(void) {
    usart.has_byte = false;
    usart.sr |= SR_EMPTY;
    usart.free_at = chip.now + SERIAL_BITS * bit_units();
    if (pins_is_output_of_line(line_of_board()->out)) {
        serial_put(&serial_from_chip, (uint8_t)usart.tdr, chip.now, bit_units());
    } else {
        violation("the USART sends, and its pin isn't its output");
    }
}

void usart_shift(void) {
    if (!is_on(CR1_SENDS) || bit_units() == 0) {
        return;
    }
    if (chip.now < usart.free_at) {
        chip_arm(E_SENT, usart.free_at);
        return;
    }
    chip_arm(E_SENT, NEVER);
    if (usart.has_byte) {
        send_byte();
        chip_arm(E_SENT, usart.free_at);
        dma_look(DMA_OUT);
    } else {
        usart.sr |= SR_COMPLETE;
    }
    tell_line();
}

void usart_receives(void) {
    uint64_t bit = is_on(CR1_RECEIVES) ? bit_units() : 0;
    if (bit != 0 && !pins_is_input_of_line(line_of_board()->in)) {
        violation("the USART receives, and its pin isn't its input, or is pulled down");
    }
    if (bit != serial_to_chip.bit) {
        serial_to_chip.bit = bit;
        serial_to_chip.seeks = chip.now;
        serial_seek(&serial_to_chip);
    }
}

void usart_receive(void) {
    bool is_framed = false;
    uint8_t byte = serial_sample(&serial_to_chip, &is_framed);
    if ((usart.sr & SR_READY) != 0) {
        usart.sr |= SR_OVERRUN;
        usart_figures.overruns++;
    } else {
        usart.rdr = byte;
        usart.sr |= SR_READY | (is_framed ? 0u : SR_FRAMING);
        usart_figures.framing += !is_framed;
    }
    tell_line();
    serial_seek(&serial_to_chip);
    dma_look(DMA_IN);
}

void usart_reset(void) {
    memset(&usart, 0, sizeof usart);
    usart.sr = SR_EMPTY | SR_COMPLETE;
}

static uint32_t load_data(void) {
    usart.sr &= ~(uint32_t)SR_READY;
    usart.sr &= usart.has_read_sr ? ~0x1fu : ~0u;
    usart.has_read_sr = false;
    tell_line();
    return usart.rdr;
}

uint32_t usart_load(uint32_t offset) {
    switch (offset) {
    case 0: usart.has_read_sr = true; return usart.sr;
    case 4: return load_data();
    case 8: return usart.brr;
    case 12: return usart.cr1;
    case 16: return usart.cr2;
    case 20: return usart.cr3;
    default: violation("register %02x of the USART isn't modelled", (unsigned)offset); return 0;
    }
}

static void store_data(uint32_t value) {
    if (usart.has_byte) {
        violation("a byte for the USART before it had room");
    }
    usart.tdr = value & 0xff;
    usart.has_byte = true;
    usart.sr &= ~(uint32_t)(SR_EMPTY | SR_COMPLETE);
    usart_shift();
}

static void store_cr1(uint32_t value) {
    uint32_t came = value & ~usart.cr1;
    usart.cr1 = value;
    if ((came & CR1_SENDS) != 0 && bit_units() != 0) {
        usart.free_at = chip.now + SERIAL_BITS * bit_units(); /* an idle frame first */
        usart.sr &= ~(uint32_t)SR_COMPLETE;
        chip_arm(E_SENT, usart.free_at);
    }
    usart_receives();
}

void usart_store(uint32_t offset, uint32_t value) {
    static const uint32_t modelled[6] = {0x3ff, 0x1ff, 0xffff, 0x21fc, 0, 0xc1};
    if (offset > 20 || (value & ~modelled[offset / 4]) != 0) {
        violation("register %02x of the USART: %x is reserved, or isn't modelled", (unsigned)offset, (unsigned)value);
        return;
    }
    switch (offset) {
    case 0: usart.sr &= value | ~0x60u; break;
    case 4: store_data(value); break;
    case 8:
        usart.brr = value;
        usart_receives();
        if (value < LEAST_DIVISOR) {
            violation("USART_BRR %x: a divisor below 1", (unsigned)value);
        }
        break;
    case 12: store_cr1(value); break;
    case 20: usart.cr3 = value; break;
    default: break;
    }
    tell_line();
    dma_look(DMA_OUT);
    dma_look(DMA_IN);
}
