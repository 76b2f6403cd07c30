/* Channels 4 and 5 of DMA1, which USART1 asks: 4 sends, 5 receives. */
#include "dma.h"

#include <string.h>

#include "addresses.h"
#include "chip.h"
#include "dma_registers.h"
#include "nvic.h"
#include "told.h"
#include "usart.h"

enum { CHANNELS = 7, MOVES_CYCLES = 6, FIRST_IRQ = 10, USART1_DATA = AT_USART1 + 4 };
enum { CCR_ON = 1, CCR_SENDS = 0x10, CCR_ROUND = 0x20, CCR_PERIPHERAL_STEPS = 0x40, CCR_MEMORY_STEPS = 0x80,
       CCR_WIDTHS = 0xf00, CCR_MEMORY_TO_MEMORY = 0x4000, CCR_BITS = 0x7fff };

struct channel {
    uint32_t ccr, cndtr, cpar, cmar;
    uint32_t reload; /* CNDTR as it was when the channel was switched on */
    uint32_t far;    /* bytes that were moved since */
};

static uint32_t isr;
static struct channel channels[CHANNELS + 1];

static int channel_of(int way) {
    return way == DMA_OUT ? 4 : 5;
}

static int event_of(int way) {
    return way == DMA_OUT ? E_DMA_OUT : E_DMA_IN;
}

static void tell_line(int channel) {
    uint32_t flags = isr >> 4 * (channel - 1) & 15;
    nvic_line(FIRST_IRQ + channel, (flags & channels[channel].ccr & 0xe) != 0);
}

static bool is_asked(int way) {
    const struct channel *of = &channels[channel_of(way)];
    return (of->ccr & CCR_ON) != 0 && of->cndtr > 0 && usart_requests(way);
}

void dma_look(int way) {
    int event = event_of(way);
    if (!is_asked(way)) {
        chip_arm(event, NEVER);
    } else if (chip.at[event] == NEVER) {
        chip_arm(event, chip.now + MOVES_CYCLES * chip.cycle);
    }
}

/* Whether what a channel is set to can be done. */
static bool is_possible(int channel) {
    struct channel *of = &channels[channel];
    bool is_modelled = (of->ccr & (CCR_WIDTHS | CCR_PERIPHERAL_STEPS | CCR_MEMORY_TO_MEMORY)) == 0
        && (of->ccr & CCR_MEMORY_STEPS) != 0;
    if (!is_modelled) {
        violation("DMA1's channel %d with CCR %x isn't modelled", channel, (unsigned)of->ccr);
        return false;
    }
    if (of->cpar != USART1_DATA || of->cmar + of->far - RAM_AT >= RAM_BYTES) {
        violation("DMA1's channel %d moves between %08x and %08x", channel, (unsigned)of->cpar,
                  (unsigned)(of->cmar + of->far));
        return false;
    }
    return true;
}

static void move_byte(const struct channel *of) {
    uint32_t at = of->cmar + of->far - RAM_AT;
    if ((of->ccr & CCR_SENDS) == 0) {
        chip.ram[at] = (uint8_t)usart_load(4);
        chip.known[at] = 1;
        return;
    }
    if (!chip.known[at]) {
        violation("DMA1 sends RAM at %08x, which nothing has written", (unsigned)(at + RAM_AT));
    }
    usart_store(4, chip.ram[at]);
}

void dma_move(int way) {
    int channel = channel_of(way);
    struct channel *of = &channels[channel];
    chip_arm(event_of(way), NEVER);
    if (!is_asked(way) || !is_possible(channel)) {
        return;
    }
    move_byte(of);
    of->far++;
    of->cndtr--;
    isr |= of->cndtr == of->reload / 2 ? 5u << 4 * (channel - 1) : 0;
    if (of->cndtr == 0) {
        isr |= 3u << 4 * (channel - 1);
        of->far = 0;
        of->cndtr = (of->ccr & CCR_ROUND) != 0 ? of->reload : 0;
    }
    tell_line(channel);
    dma_look(way);
}

void dma_reset(void) {
    isr = 0;
    memset(channels, 0, sizeof channels);
}

uint32_t dma_load(uint32_t offset) {
    const struct channel *of = &channels[offset < 8 ? 0 : (offset - 8) / 20 + 1];
    if (offset < 8) {
        return offset == 0 ? isr : 0;
    }
    switch ((offset - 8) % 20) {
    case 0: return of->ccr;
    case 4: return of->cndtr;
    case 8: return of->cpar;
    case 12: return of->cmar;
    default: return 0;
    }
}

static void clear_flags(uint32_t value) {
    for (int each = 0; each < CHANNELS; each++) {
        uint32_t bits = value >> 4 * each & 15;
        isr &= ~(((bits & 1) != 0 ? 15u : bits) << 4 * each);
        tell_line(each + 1);
    }
}

static void store_ccr(struct channel *of, uint32_t value) {
    bool is_begun = (of->ccr & CCR_ON) == 0 && (value & CCR_ON) != 0;
    if ((value & ~(uint32_t)CCR_BITS) != 0) {
        violation("reserved bits of a DMA_CCR: %x", (unsigned)value);
    }
    if (is_begun && of != &channels[4] && of != &channels[5]) {
        violation("DMA1's channel %d isn't modelled", (int)(of - channels));
    }
    of->reload = is_begun ? of->cndtr : of->reload;
    of->far = is_begun ? 0 : of->far;
    of->ccr = value & CCR_BITS;
}

static void store_channel(struct channel *of, uint32_t offset, uint32_t value) {
    if ((of->ccr & CCR_ON) != 0 && offset != 0) {
        violation("a store to a register of DMA1 while channel %d is on", (int)(of - channels));
        return;
    }
    switch (offset) {
    case 0: store_ccr(of, value); break;
    case 4:
        of->cndtr = value & 0xffff;
        of->far = 0;
        break;
    case 8: of->cpar = value; break;
    case 12: of->cmar = value; break;
    default: violation("no such register of DMA1"); break;
    }
}

void dma_store(uint32_t offset, uint32_t value) {
    int channel = offset < 8 ? 0 : (int)(offset - 8) / 20 + 1;
    if (offset == 4) {
        clear_flags(value);
        return;
    }
    if (channel == 0 || channel > CHANNELS) {
        violation("a store to register %02x of DMA1", (unsigned)offset);
        return;
    }
    store_channel(&channels[channel], (offset - 8) % 20, value);
    tell_line(channel);
    dma_look(DMA_OUT);
    dma_look(DMA_IN);
}
