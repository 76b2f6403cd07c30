/* The streams of DMA1 and DMA2 (RM0383, "DMA controller") in direct mode, byte by byte, between the RAM and the USART
 * of the line: which stream and channel that asks is the manual's table of requests. */
#include "dma.h"

#include <string.h>

#include "addresses.h"
#include "chip.h"
#include "line.h"
#include "nvic.h"
#include "streams.h"
#include "told.h"
#include "usart.h"

enum { CONTROLLERS = 2, STREAMS = 8, MOVES_CYCLES = 8, FIRST = 0x10, SIZE = 0x18 };
enum { CR_ON = 1, CR_DIRECTION = 3 << 6, CR_SENDS = 1 << 6, CR_ROUND = 1 << 8, CR_MEMORY_STEPS = 1 << 10,
       CR_PRIORITY = 3 << 16, CR_CHANNEL_AT = 25, CR_INTERRUPTS = 0x1e, FCR_RESET = 0x21 };
enum { FLAG_HALF = 1 << 4, FLAG_COMPLETE = 1 << 5, FLAGS = 0x3d };

struct stream {
    uint32_t cr, ndtr, par, m0ar;
    uint32_t reload; /* NDTR as it was when the stream was switched on */
    uint32_t far;    /* bytes that were moved since */
    uint32_t flags;  /* as LISR and HISR have them */
};
static struct stream streams[CONTROLLERS][STREAMS];

/* Which streams may serve a USART, and by which channel. */
static const struct request { uint32_t usart; int way, controller, stream; uint32_t channel; } requests[] = {
    {AT_USART1, DMA_IN, 1, 2, 4}, {AT_USART1, DMA_IN, 1, 5, 4}, {AT_USART1, DMA_OUT, 1, 7, 4},
    {AT_USART2, DMA_IN, 0, 5, 4}, {AT_USART2, DMA_IN, 0, 7, 6}, {AT_USART2, DMA_OUT, 0, 6, 4}};

/* The stream that is on for a way of the line; NULL for none. */
static struct stream *stream_of(int way, const struct request **as) {
    for (size_t each = 0; each < sizeof requests / sizeof requests[0]; each++) {
        const struct request *request = &requests[each];
        struct stream *stream = &streams[request->controller][request->stream];
        bool is_meant = request->usart == line_of_board()->usart && request->way == way;
        if (is_meant && (stream->cr & CR_ON) != 0 && stream->cr >> CR_CHANNEL_AT == request->channel) {
            *as = request;
            return stream;
        }
    }
    return NULL;
}

static int event_of(int way) {
    return way == DMA_OUT ? E_DMA_OUT : E_DMA_IN;
}

void dma_look(int way) {
    const struct request *as = NULL;
    struct stream *stream = stream_of(way, &as);
    if (stream == NULL || !usart_requests(way)) {
        chip_arm(event_of(way), NEVER);
    } else if (chip.at[event_of(way)] == NEVER) {
        chip_arm(event_of(way), chip.now + MOVES_CYCLES * chip.cycle);
    }
}

static bool is_possible(const struct stream *stream, int way) {
    uint32_t rest = stream->cr & ~(uint32_t)(CR_ON | CR_DIRECTION | CR_ROUND | CR_PRIORITY | CR_INTERRUPTS | 7u << 25);
    uint32_t wanted = way == DMA_OUT ? CR_SENDS : 0;
    if (rest != CR_MEMORY_STEPS || (stream->cr & CR_DIRECTION) != wanted) {
        violation("a stream with CR %x isn't modelled, or goes the other way", (unsigned)stream->cr);
        return false;
    }
    if (stream->par != line_of_board()->usart + 4 || stream->m0ar + stream->far - RAM_AT >= RAM_BYTES) {
        violation("a stream moves between %08x and %08x", (unsigned)stream->par,
                  (unsigned)(stream->m0ar + stream->far));
        return false;
    }
    return true;
}

static void move_byte(const struct stream *stream, int way) {
    uint32_t at = stream->m0ar + stream->far - RAM_AT;
    if (way == DMA_IN) {
        chip.ram[at] = (uint8_t)usart_load(4);
        chip.known[at] = 1;
        return;
    }
    if (!chip.known[at]) {
        violation("the DMA sends RAM at %08x, which nothing has written", (unsigned)(at + RAM_AT));
    }
    usart_store(4, chip.ram[at]);
}

static int irq_of(const struct request *of) {
    static const int irqs[CONTROLLERS][STREAMS] = {{11, 12, 13, 14, 15, 16, 17, 47}, {56, 57, 58, 59, 60, 68, 69, 70}};
    return irqs[of->controller][of->stream];
}

/* Counts a byte that was moved. At its end a stream is switched off, but for one that goes round. */
static void count_byte(struct stream *stream) {
    stream->far++;
    stream->ndtr--;
    stream->flags |= stream->ndtr == stream->reload / 2 ? FLAG_HALF : 0;
    if (stream->ndtr > 0) {
        return;
    }
    stream->flags |= FLAG_COMPLETE;
    stream->far = 0;
    if ((stream->cr & CR_ROUND) != 0) {
        stream->ndtr = stream->reload;
    } else {
        stream->cr &= ~(uint32_t)CR_ON;
    }
}

void dma_move(int way) {
    const struct request *as = NULL;
    struct stream *stream = stream_of(way, &as);
    chip_arm(event_of(way), NEVER);
    if (stream == NULL || !usart_requests(way) || !is_possible(stream, way)) {
        return;
    }
    move_byte(stream, way);
    count_byte(stream);
    nvic_line(irq_of(as), (stream->cr & CR_INTERRUPTS) != 0 && (stream->flags & FLAG_COMPLETE) != 0);
    dma_look(way);
}

void dma_reset(void) {
    memset(streams, 0, sizeof streams);
}

/* Where a stream's flags are in LISR or HISR. */
static uint32_t place_of(int stream) {
    static const uint32_t places[4] = {0, 6, 16, 22};
    return places[stream % 4];
}

uint32_t dma_load(int which, uint32_t offset) {
    if (offset < 8) {
        uint32_t flags = 0;
        for (int each = 0; each < 4; each++) {
            flags |= streams[which][(int)offset + each].flags << place_of(each);
        }
        return flags;
    }
    const struct stream *stream = &streams[which][(offset - FIRST) / SIZE % STREAMS];
    switch (offset < FIRST ? SIZE : (offset - FIRST) % SIZE) {
    case 0: return stream->cr;
    case 4: return stream->ndtr;
    case 8: return stream->par;
    case 12: return stream->m0ar;
    case 20: return FCR_RESET;
    default: return 0;
    }
}

static void clear_flags(int which, int first, uint32_t value) {
    for (int each = 0; each < 4; each++) {
        streams[which][first + each].flags &= ~(value >> place_of(each) & FLAGS);
    }
}

/* A stream is switched on where none of its flags is set, and all it needs is. */
static void store_cr(struct stream *stream, uint32_t value) {
    bool is_begun = (stream->cr & CR_ON) == 0 && (value & CR_ON) != 0;
    if (value >> 28 != 0) {
        violation("reserved bits of a stream's CR: %x", (unsigned)value);
    }
    if (is_begun && stream->flags != 0) {
        violation("a stream is switched on while its flags %x are set", (unsigned)stream->flags);
    }
    if ((stream->cr & CR_ON) != 0 && (value & CR_ON) != 0 && value != stream->cr) {
        violation("a stream's CR is changed while it is on");
    }
    if (is_begun && stream->ndtr == 0) {
        value &= ~(uint32_t)CR_ON;
    }
    stream->reload = is_begun ? stream->ndtr : stream->reload;
    stream->far = is_begun ? 0 : stream->far;
    stream->cr = value;
}

static void store_stream(struct stream *stream, uint32_t offset, uint32_t value) {
    if ((stream->cr & CR_ON) != 0 && offset != 0) {
        violation("a store to register %02x of a stream that is on", (unsigned)offset);
        return;
    }
    switch (offset) {
    case 0: store_cr(stream, value); break;
    case 4: stream->ndtr = value & 0xffff; break;
    case 8: stream->par = value; break;
    case 12: stream->m0ar = value; break;
    default: violation("register %02x of a stream isn't modelled", (unsigned)offset); break;
    }
}

void dma_store(int which, uint32_t offset, uint32_t value) {
    if (offset == 8 || offset == 12) {
        clear_flags(which, offset == 8 ? 0 : 4, value);
    } else if (offset < FIRST || offset >= FIRST + SIZE * STREAMS) {
        violation("a store to register %02x of a DMA", (unsigned)offset);
    } else {
        store_stream(&streams[which][(offset - FIRST) / SIZE], (offset - FIRST) % SIZE, value);
    }
    dma_look(DMA_OUT);
    dma_look(DMA_IN);
}
