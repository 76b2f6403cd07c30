#include "wire.h"

enum { MOST_SLOT = 128, MOST_SPINDLE = 2 };

void wire_put16(uint8_t *to, uint16_t value) {
    to[0] = (uint8_t)(value & 0xff);
    to[1] = (uint8_t)(value >> 8);
}

void wire_put32(uint8_t *to, uint32_t value) {
    wire_put16(to, (uint16_t)(value & 0xffff));
    wire_put16(to + 2, (uint16_t)(value >> 16));
}

void wire_put64(uint8_t *to, uint64_t value) {
    wire_put32(to, (uint32_t)(value & 0xffffffff));
    wire_put32(to + 4, (uint32_t)(value >> 32));
}

uint16_t wire_get16(const uint8_t *from) {
    return (uint16_t)(from[0] | from[1] << 8);
}

uint32_t wire_get32(const uint8_t *from) {
    return wire_get16(from) | (uint32_t)wire_get16(from + 2) << 16;
}

uint64_t wire_get64(const uint8_t *from) {
    return wire_get32(from) | (uint64_t)wire_get32(from + 4) << 32;
}

uint32_t wire_crc(const uint8_t *bytes, size_t size) {
    static const uint32_t of_nibble[16] = {
        0x00000000, 0x1db71064, 0x3b6e20c8, 0x26d930ac, 0x76dc4190, 0x6b6b51f4, 0x4db26158, 0x5005713c,
        0xedb88320, 0xf00f9344, 0xd6d6a3e8, 0xcb61b38c, 0x9b64c2b0, 0x86d3d2d4, 0xa00ae278, 0xbdbdf21c};
    uint32_t crc = 0xffffffff;
    for (size_t at = 0; at < size; at++) {
        crc ^= bytes[at];
        crc = crc >> 4 ^ of_nibble[crc & 15];
        crc = crc >> 4 ^ of_nibble[crc & 15];
    }
    return ~crc;
}

/* Leaves out the zeros: before each run of bytes without one stands how far it is to the next. */
static size_t stuff(uint8_t *line, const uint8_t *body, size_t size) {
    size_t mark = 0;
    size_t used = 1;
    for (size_t at = 0; at < size; at++) {
        if (body[at] == 0) {
            line[mark] = (uint8_t)(used - mark);
            mark = used;
        } else {
            line[used] = body[at];
        }
        used++;
    }
    line[mark] = (uint8_t)(used - mark);
    line[used] = 0;
    return used + 1;
}

size_t wire_frame(uint8_t *line, uint8_t *body, size_t size) {
    wire_put32(body + size, wire_crc(body, size));
    return stuff(line, body, size + WIRE_CRC);
}

static void put_byte(struct wire_reader *reader, uint8_t byte) {
    if (reader->used == WIRE_BODY) {
        reader->is_bad = true;
        return;
    }
    reader->body[reader->used] = byte;
    reader->used++;
}

/* A zero came: the frame is whole, or damaged, or there was none. */
static enum wire_taken end_frame(struct wire_reader *reader, size_t *size) {
    bool is_begun = reader->is_begun;
    bool is_whole = !reader->is_bad && reader->left == 0 && reader->used > WIRE_CRC;
    size_t body = is_whole ? (size_t)(reader->used - WIRE_CRC) : 0;
    reader->used = 0;
    reader->left = 0;
    reader->is_begun = false;
    reader->is_bad = false;
    if (!is_begun) {
        return WIRE_MORE;
    }
    *size = body;
    bool is_good = is_whole && wire_get32(reader->body + body) == wire_crc(reader->body, body);
    return is_good ? WIRE_FRAME : WIRE_DAMAGED;
}

enum wire_taken wire_take(struct wire_reader *reader, uint8_t byte, size_t *size) {
    if (byte == 0) {
        return end_frame(reader, size);
    }
    if (reader->left > 0) {
        put_byte(reader, byte);
        reader->left--;
        return WIRE_MORE;
    }
    if (reader->is_begun) {
        put_byte(reader, 0);
    }
    reader->is_begun = true;
    reader->left = (uint8_t)(byte - 1);
    return WIRE_MORE;
}

static bool are_outputs(const struct sink_outputs *outputs) {
    return outputs->spindle <= MOST_SPINDLE && outputs->selected <= MOST_SLOT && outputs->slot <= MOST_SLOT;
}

bool wire_is_word(uint32_t value, uint8_t bits) {
    struct sink_outputs outputs;
    if ((bits & WORD_OUTPUT) == 0) {
        return wire_ticks(value) >= WIRE_LEAST_TICKS;
    }
    if (wire_is_speed(bits)) {
        return bits == (WORD_OUTPUT | WORD_SPEED);
    }
    wire_get_outputs(0, value, &outputs);
    bool has_own_bits = (bits | WORD_SWITCH | WORD_LINE) == (WORD_OUTPUT | WORD_REST | WORD_SWITCH | WORD_LINE);
    return has_own_bits && ((bits & WORD_SWITCH) == 0 || are_outputs(&outputs));
}

bool wire_is_speed(uint8_t bits) {
    return (bits & (WORD_OUTPUT | WORD_SPEED)) == (WORD_OUTPUT | WORD_SPEED);
}

uint64_t wire_speed(uint32_t value) {
    return (uint64_t)value * 15625 / 2; /* 1000000 / 128 */
}

uint32_t wire_ticks(uint32_t value) {
    return value & WIRE_MOST_TICKS;
}

uint32_t wire_slope(uint32_t value) {
    return wire_slope_of((uint8_t)(value >> 24 & WIRE_MOST_SLOPE));
}

bool wire_is_line(uint32_t value, uint8_t bits) {
    return (bits & WORD_OUTPUT) != 0 ? (bits & WORD_LINE) != 0 : (value >> 24 & WIRE_LINE_BIT) != 0;
}

bool wire_is_extra(uint8_t bits) {
    unsigned steps = bits & WORD_STEPS;
    return (bits & WORD_OUTPUT) == 0 && steps != 0 && ((unsigned)(bits & WORD_DOWN) >> 3 & ~steps) != 0;
}

uint32_t wire_slope_of(uint8_t byte) {
    return (uint32_t)(8 | (byte & 7)) << (byte >> 3);
}

uint8_t wire_slope_byte(uint64_t slope) {
    uint8_t byte = 0;
    while (byte < WIRE_MOST_SLOPE && wire_slope_of((uint8_t)(byte + 1)) <= slope) {
        byte++;
    }
    return byte;
}

size_t wire_put_answer(uint8_t *body, const struct sink_answer *answer) {
    body[0] = KIND_ANSWER;
    wire_put32(body + 1, answer->session);
    wire_put32(body + 5, answer->taken);
    wire_put32(body + 9, answer->made);
    body[13] = answer->state;
    body[14] = answer->fault;
    wire_put16(body + 15, answer->inputs);
    wire_put16(body + 17, answer->lost);
    wire_put32(body + 19, answer->token);
    wire_put32(body + 23, answer->touched);
    wire_put16(body + 27, answer->dry);
    wire_put64(body + 29, answer->mark);
    wire_put32(body + 37, answer->lines);
    return WIRE_ANSWER;
}

bool wire_get_answer(const uint8_t *body, size_t size, struct sink_answer *answer) {
    if (size != WIRE_ANSWER || body[0] != KIND_ANSWER || body[13] > SINK_BROKEN || body[14] > FAULT_HUNG) {
        return false;
    }
    answer->session = wire_get32(body + 1);
    answer->taken = wire_get32(body + 5);
    answer->made = wire_get32(body + 9);
    answer->state = body[13];
    answer->fault = body[14];
    answer->inputs = wire_get16(body + 15);
    answer->lost = wire_get16(body + 17);
    answer->token = wire_get32(body + 19);
    answer->touched = wire_get32(body + 23);
    answer->dry = wire_get16(body + 27);
    answer->mark = wire_get64(body + 29);
    answer->lines = wire_get32(body + 37);
    return true;
}

void wire_put_outputs(uint32_t *low, uint32_t *switches, const struct sink_outputs *outputs) {
    *low = (uint32_t)(outputs->speed & 0xffffffff);
    uint32_t value = (uint32_t)(outputs->speed >> 32) << 20;
    value |= (uint32_t)outputs->slot << 12;
    value |= (uint32_t)outputs->selected << 4;
    value |= (uint32_t)outputs->flood << 3;
    value |= (uint32_t)outputs->mist << 2;
    *switches = value | outputs->spindle;
}

void wire_get_outputs(uint32_t low, uint32_t switches, struct sink_outputs *outputs) {
    outputs->speed = (uint64_t)(switches >> 20) << 32 | low;
    outputs->slot = (uint8_t)(switches >> 12 & 0xff);
    outputs->selected = (uint8_t)(switches >> 4 & 0xff);
    outputs->flood = (uint8_t)(switches >> 3 & 1);
    outputs->mist = (uint8_t)(switches >> 2 & 1);
    outputs->spindle = (uint8_t)(switches & 3);
}
