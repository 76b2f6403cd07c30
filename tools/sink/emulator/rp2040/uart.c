#include "uart.h"

#include <string.h>

#include "chip.h"
#include "clocks.h"
#include "addresses.h"
#include "dma.h"
#include "pins.h"
#include "serial.h"
#include "told.h"

enum { FIFO = 32, PIN_OUT = 0, PIN_IN = 1, FRAMING = 0x100, OVERRUN = 0x800 };
enum { CR_ON = 1, CR_SENDS = 0x100, CR_RECEIVES = 0x200, DMA_RECEIVES = 1, DMA_SENDS = 2 };
enum { LCR_FIFOS = 0x10, LCR_8_BITS = 0x60 };
enum { FR_BUSY = 8, FR_IN_EMPTY = 0x10, FR_OUT_FULL = 0x20, FR_IN_FULL = 0x40, FR_OUT_EMPTY = 0x80 };

struct fifo {
    uint16_t items[FIFO];
    uint32_t begin, end;
};

static struct {
    uint32_t ibrd, fbrd, lcr, cr, dmacr;
    uint32_t divisor; /* in force since LCR_H was written: 64ths */
    struct fifo in, out;
    uint64_t free_at; /* when the shift register is free */
} uart;
struct uart_figures uart_figures;

static uint32_t depth(void) {
    return (uart.lcr & LCR_FIFOS) != 0 ? FIFO : 1;
}

static uint32_t used(const struct fifo *fifo) {
    return fifo->end - fifo->begin;
}

uint64_t uart_baud(void) {
    return uart.divisor < 64 ? 0 : clocks_peri_hz() * 4 / uart.divisor;
}

static uint64_t bit_units(void) {
    uint64_t hz = clocks_peri_hz();
    return uart.divisor < 64 || hz == 0 ? 0 : uart.divisor * (UNITS_A_SECOND / hz) / 4;
}

static bool is_on(uint32_t way) {
    return (uart.cr & (CR_ON | way)) == (CR_ON | way);
}

bool uart_asks(bool to_send) {
    if (!clocks_is_released(AT_UART0)) {
        return false;
    }
    return to_send ? (uart.dmacr & DMA_SENDS) != 0 && used(&uart.out) < depth()
                   : (uart.dmacr & DMA_RECEIVES) != 0 && used(&uart.in) > 0;
}

void uart_shift(void) {
    if (!is_on(CR_SENDS) || bit_units() == 0 || chip.now < uart.free_at) {
        chip_arm(E_SENT, is_on(CR_SENDS) && chip.now < uart.free_at ? uart.free_at : NEVER);
        return;
    }
    chip_arm(E_SENT, NEVER);
    if (used(&uart.out) == 0) {
        return;
    }
    uint8_t byte = (uint8_t)uart.out.items[uart.out.begin % FIFO];
    uart.out.begin++;
    uart.free_at = chip.now + SERIAL_BITS * bit_units();
    chip_arm(E_SENT, uart.free_at);
    if (pins_drives(PIN_OUT, PIN_OF_UART)) {
        serial_put(&serial_from_chip, byte, chip.now, bit_units());
    } else {
        violation("UART0 sends, and GP0 isn't its output");
    }
    dma_look();
}

void uart_receives(void) {
    uint64_t bit = is_on(CR_RECEIVES) && pins_sees(PIN_IN, PIN_OF_UART) ? bit_units() : 0;
    if (bit != serial_to_chip.bit) {
        serial_to_chip.bit = bit;
        serial_to_chip.seeks = chip.now;
        serial_seek(&serial_to_chip);
    }
}

void uart_receive(void) {
    bool is_framed = false;
    uint8_t byte = serial_sample(&serial_to_chip, &is_framed);
    if (used(&uart.in) == depth()) {
        uart_figures.overruns++;
        uart.in.items[(uart.in.end - 1) % FIFO] |= OVERRUN;
    } else {
        uart.in.items[uart.in.end % FIFO] = (uint16_t)(byte | (is_framed ? 0 : FRAMING));
        uart.in.end++;
        uart_figures.framing += !is_framed;
    }
    serial_seek(&serial_to_chip);
    dma_look();
}

void uart_reset(void) {
    memset(&uart, 0, sizeof uart);
    uart.cr = CR_SENDS | CR_RECEIVES;
    chip_arm(E_SENT, NEVER);
    uart_receives();
}

static uint32_t load_data(void) {
    uint32_t item = uart.in.items[uart.in.begin % FIFO];
    if (used(&uart.in) == 0) {
        return 0;
    }
    uart.in.begin++;
    return item;
}

static uint32_t flags(void) {
    uint32_t out = used(&uart.out);
    uint32_t in = used(&uart.in);
    return (out > 0 || chip.now < uart.free_at ? FR_BUSY : 0u) | (out == 0 ? FR_OUT_EMPTY : 0u)
        | (out == depth() ? FR_OUT_FULL : 0u) | (in == 0 ? FR_IN_EMPTY : 0u) | (in == depth() ? FR_IN_FULL : 0u);
}

uint32_t uart_load(uint32_t offset) {
    switch (offset) {
    case 0x00: return load_data();
    case 0x18: return flags();
    case 0x24: return uart.ibrd;
    case 0x28: return uart.fbrd;
    case 0x2c: return uart.lcr;
    case 0x30: return uart.cr;
    case 0x48: return uart.dmacr;
    default: violation("register %02x of UART0 isn't modelled", (unsigned)offset); return 0;
    }
}

static void store_data(uint32_t value) {
    if (used(&uart.out) == depth()) {
        violation("a byte for UART0 before it had room");
        return;
    }
    uart.out.items[uart.out.end % FIFO] = value & 0xff;
    uart.out.end++;
    uart_shift();
}

/* The divisor comes into force with LCR_H, and none of them changes while it is on. */
static void store_format(uint32_t offset, uint32_t value) {
    uint32_t *const to = offset == 0x24 ? &uart.ibrd : offset == 0x28 ? &uart.fbrd : &uart.lcr;
    if ((uart.cr & CR_ON) != 0) {
        violation("register %02x of UART0 is changed while that is on", (unsigned)offset);
    }
    *to = value;
    if (offset == 0x2c) {
        uart.divisor = uart.ibrd << 6 | uart.fbrd;
        if ((value & ~(uint32_t)LCR_FIFOS) != LCR_8_BITS) {
            violation("UART0's format %x isn't modelled", (unsigned)value);
        }
    }
}

static void store_control(uint32_t value) {
    uart.cr = value;
    if ((value & CR_ON) != 0 && (uart.divisor < 64 || bit_units() == 0)) {
        violation("UART0 is switched on without a divisor, or without clk_peri");
    }
    uart_receives();
    uart_shift();
}

void uart_store(uint32_t offset, uint32_t value) {
    static const struct { uint32_t offset, bits; } modelled[] = {
        {0x00, 0xff}, {0x24, 0xffff}, {0x28, 0x3f}, {0x2c, 0x70}, {0x30, 0x301}, {0x48, 3}};
    bool is_modelled = false;
    for (size_t each = 0; each < sizeof modelled / sizeof modelled[0]; each++) {
        is_modelled = is_modelled || (modelled[each].offset == offset && (value & ~modelled[each].bits) == 0);
    }
    if (!is_modelled) {
        violation("register %02x of UART0: %x is reserved, or isn't modelled", (unsigned)offset, (unsigned)value);
        return;
    }
    switch (offset) {
    case 0x00: store_data(value); break;
    case 0x30: store_control(value); break;
    case 0x48: uart.dmacr = value; break;
    default: store_format(offset, value); break;
    }
    dma_look();
}
