#include "dma.h"

#include <stdbool.h>
#include <string.h>

#include "addresses.h"
#include "chip.h"
#include "code.h"
#include "told.h"
#include "uart.h"

enum { CHANNELS = 12, CHANNEL_BYTES = 0x40, TAKES_CYCLES = 5, ASKED_TO_SEND = 20, ASKED_TO_TAKE = 21 };
enum { CTRL_ON = 1, CTRL_SIZE = 0xc, CTRL_FROM_NEXT = 0x10, CTRL_TO_NEXT = 0x20, CTRL_RING_TO = 0x400,
       CTRL_BUSY = 1 << 24, CTRL_MODELLED = 0x003fffff };
enum { FROM, TO, COUNT, CTRL };

struct channel {
    uint32_t from, to, count, ctrl;
    uint32_t left;
    bool is_busy;
};
static struct channel channels[CHANNELS];

static bool is_asked(const struct channel *channel) {
    uint32_t by = channel->ctrl >> 15 & 0x3f;
    return channel->is_busy && (channel->ctrl & CTRL_ON) != 0 && uart_asks(by == ASKED_TO_SEND);
}

void dma_look(void) {
    bool is_any = false;
    for (int each = 0; each < CHANNELS; each++) {
        is_any = is_any || is_asked(&channels[each]);
    }
    if (!is_any) {
        chip_arm(E_DMA, NEVER);
    } else if (chip.at[E_DMA] == NEVER) {
        chip_arm(E_DMA, chip.now + TAKES_CYCLES * chip.cycle);
    }
}

static uint32_t read_byte(uint32_t at) {
    uint32_t in_ram = at - RAM_AT;
    if (at == AT_UART0) {
        return uart_load(0) & 0xff;
    }
    if (in_ram >= RAM_BYTES || chip.known[in_ram] == 0) {
        violation("DMA reads at %08x: nothing is there, or has been written", (unsigned)at);
        return 0;
    }
    return chip.ram[in_ram];
}

static void write_byte(uint32_t at, uint32_t byte) {
    uint32_t in_ram = at - RAM_AT;
    if (at == AT_UART0) {
        uart_store(0, byte);
    } else if (in_ram < RAM_BYTES) {
        chip.ram[in_ram] = (uint8_t)byte;
        chip.known[in_ram] = 1;
        code_change(in_ram, 1);
    } else {
        violation("DMA writes at %08x: nothing is there", (unsigned)at);
    }
}

/* The address behind one; in a ring its low bits alone change. */
static uint32_t behind(const struct channel *channel, uint32_t at, bool is_to) {
    uint32_t power = channel->ctrl >> 6 & 15;
    bool is_ring = power != 0 && ((channel->ctrl & CTRL_RING_TO) != 0) == is_to;
    uint32_t mask = is_ring ? (1u << power) - 1 : ~0u;
    bool goes_on = (channel->ctrl & (is_to ? CTRL_TO_NEXT : CTRL_FROM_NEXT)) != 0;
    return goes_on ? (at & ~mask) | ((at + 1) & mask) : at;
}

static void begin(struct channel *channel) {
    uint32_t by = channel->ctrl >> 15 & 0x3f;
    if (channel->is_busy) {
        violation("channel %u of the DMA is begun while it is busy", (unsigned)(channel - channels));
    }
    if ((channel->ctrl & CTRL_ON) == 0 || channel->is_busy) {
        return;
    }
    channel->left = channel->count;
    channel->is_busy = channel->left > 0;
    if ((channel->ctrl & CTRL_SIZE) != 0 || (by != ASKED_TO_SEND && by != ASKED_TO_TAKE)) {
        violation("DMA as %08x says isn't modelled", (unsigned)channel->ctrl);
    }
}

/* One channel after the other, from the one behind that which moved a byte last. */
void dma_move(void) {
    static int last;
    int which = -1;
    for (int each = 1; each <= CHANNELS && which < 0; each++) {
        which = is_asked(&channels[(last + each) % CHANNELS]) ? (last + each) % CHANNELS : -1;
    }
    chip_arm(E_DMA, NEVER);
    if (which < 0) {
        return;
    }
    struct channel *channel = &channels[which];
    last = which;
    write_byte(channel->to, read_byte(channel->from));
    channel->from = behind(channel, channel->from, false);
    channel->to = behind(channel, channel->to, true);
    channel->left--;
    if (channel->left == 0) {
        uint32_t next = channel->ctrl >> 11 & 15;
        channel->is_busy = false;
        if (next != (uint32_t)which && next < CHANNELS) {
            begin(&channels[next]);
        }
    }
    dma_look();
}

void dma_reset(void) {
    memset(channels, 0, sizeof channels);
    for (uint32_t each = 0; each < CHANNELS; each++) {
        channels[each].ctrl = each << 11;
    }
    chip_arm(E_DMA, NEVER);
}

void dma_set_left(uint32_t channel, uint32_t count) {
    channels[channel].left = count;
}

/* Which register of a channel each of its 16 words is. */
static int register_of(uint32_t offset) {
    static const uint8_t which[16] = {FROM, TO, COUNT, CTRL, CTRL, FROM, TO, COUNT,
                                      CTRL, COUNT, FROM, TO, CTRL, TO, COUNT, FROM};
    return which[offset / 4 % 16];
}

uint32_t dma_load(uint32_t offset) {
    const struct channel *channel = &channels[offset / CHANNEL_BYTES % CHANNELS];
    if (offset >= CHANNELS * CHANNEL_BYTES) {
        violation("register %03x of the DMA isn't modelled", (unsigned)offset);
        return 0;
    }
    switch (register_of(offset)) {
    case FROM: return channel->from;
    case TO: return channel->to;
    case COUNT: return channel->left;
    default: return channel->ctrl | (channel->is_busy ? CTRL_BUSY : 0u);
    }
}

void dma_store(uint32_t offset, uint32_t value) {
    struct channel *channel = &channels[offset / CHANNEL_BYTES % CHANNELS];
    if (offset >= CHANNELS * CHANNEL_BYTES) {
        violation("register %03x of the DMA isn't modelled", (unsigned)offset);
        return;
    }
    if (channel->is_busy) {
        violation("channel %u of the DMA is changed while it is busy", (unsigned)(offset / CHANNEL_BYTES));
    }
    switch (register_of(offset)) {
    case FROM: channel->from = value; break;
    case TO: channel->to = value; break;
    case COUNT: channel->count = channel->left = value; break;
    default:
        channel->ctrl = value & CTRL_MODELLED;
        if ((value & ~(uint32_t)(CTRL_MODELLED | CTRL_BUSY)) != 0) {
            violation("DMA as %08x says isn't modelled", (unsigned)value);
        }
        break;
    }
    if (offset % 16 == 12) {
        begin(channel);
    }
    dma_look();
}
