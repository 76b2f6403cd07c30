#include "serial.h"

#include "chip.h"
#include "told.h"

struct serial serial_to_chip = {.event = E_RECEIVED};
struct serial serial_from_chip = {.event = E_HEARD};
static bool is_pulled;
static struct { uint8_t bytes[SERIAL_BYTES]; uint64_t ns[SERIAL_BYTES]; size_t begin, end; } heard;

static struct serial_byte *byte_at(struct serial *line, uint32_t at) {
    return &line->bytes[at % SERIAL_BYTES];
}

static uint64_t end_of(const struct serial_byte *byte) {
    return byte->from + SERIAL_BITS * byte->bit;
}

/* A byte's bits as they are sent: start, eight, stop. */
static bool bit_of(const struct serial_byte *byte, uint64_t which) {
    return (((uint32_t)byte->byte << 1 | 0x200) >> which & 1) != 0;
}

static bool level_at(struct serial *line, uint64_t time) {
    uint32_t at = line->begin;
    while (at != line->end && time >= end_of(byte_at(line, at))) {
        at++;
    }
    const struct serial_byte *byte = byte_at(line, at);
    bool is_idle = at == line->end || time < byte->from || time >= byte->cut;
    return is_idle || bit_of(byte, (time - byte->from) / byte->bit);
}

/* The next time at which a byte falls, NEVER for not. */
static uint64_t fall_of(const struct serial_byte *byte, uint64_t from) {
    for (uint32_t which = 0; which < SERIAL_BITS; which++) {
        bool was = which == 0 || bit_of(byte, which - 1);
        uint64_t time = byte->from + which * byte->bit;
        if (was && !bit_of(byte, which) && time >= from && time < byte->cut) {
            return time;
        }
    }
    return NEVER;
}

void serial_seek(struct serial *line) {
    if (line->bit == 0) {
        chip_arm(line->event, NEVER);
        return;
    }
    while (line->begin != line->end && end_of(byte_at(line, line->begin)) <= line->seeks) {
        line->begin++;
    }
    line->begun = NEVER;
    for (uint32_t at = line->begin; at != line->end && line->begun == NEVER; at++) {
        line->begun = fall_of(byte_at(line, at), line->seeks);
    }
    chip_arm(line->event, line->begun == NEVER ? NEVER : line->begun + 19 * line->bit / 2);
}

void serial_put(struct serial *line, uint8_t byte, uint64_t from, uint64_t bit) {
    if (line->end - line->begin == SERIAL_BYTES) {
        violation("the model's line has no room");
        return;
    }
    *byte_at(line, line->end) = (struct serial_byte){from, bit, NEVER, byte};
    line->end++;
    if (chip.at[line->event] == NEVER) {
        serial_seek(line);
    }
}

uint8_t serial_sample(struct serial *line, bool *is_framed) {
    uint8_t byte = 0;
    for (uint32_t each = 0; each < 8; each++) {
        byte |= (uint8_t)(level_at(line, line->begun + (2 * each + 3) * line->bit / 2) << each);
    }
    *is_framed = level_at(line, line->begun + 19 * line->bit / 2);
    line->seeks = line->begun + 19 * line->bit / 2;
    return byte;
}

void serial_hear(void) {
    bool is_framed = false;
    uint8_t byte = serial_sample(&serial_from_chip, &is_framed);
    if (heard.end - heard.begin < SERIAL_BYTES && !is_pulled) {
        heard.bytes[heard.end % SERIAL_BYTES] = byte;
        heard.ns[heard.end % SERIAL_BYTES] = chip_ns(chip.now);
        heard.end++;
    }
    serial_seek(&serial_from_chip);
}

size_t serial_heard(uint8_t *bytes, uint64_t *ns, size_t room) {
    size_t count = 0;
    while (count < room && heard.begin != heard.end) {
        bytes[count] = heard.bytes[heard.begin % SERIAL_BYTES];
        if (ns != NULL) {
            ns[count] = heard.ns[heard.begin % SERIAL_BYTES];
        }
        heard.begin++;
        count++;
    }
    return count;
}

/* Drops what the chip's end has passed. */
static void drop_past(struct serial *line) {
    while (line->begin != line->end && end_of(byte_at(line, line->begin)) <= chip.now && line->bit == 0) {
        line->begin++;
    }
}

void serial_send(const uint8_t *bytes, size_t size) {
    struct serial *line = &serial_to_chip;
    uint64_t bit = UNITS_A_SECOND / around.baud;
    uint64_t from = chip.now;
    if (is_pulled) {
        return;
    }
    drop_past(line);
    if (line->begin != line->end && end_of(byte_at(line, line->end - 1)) > from) {
        from = end_of(byte_at(line, line->end - 1));
    }
    for (size_t at = 0; at < size; at++) {
        serial_put(line, bytes[at], from, bit);
        from += SERIAL_BITS * bit;
    }
}

size_t serial_sending(void) {
    struct serial *line = &serial_to_chip;
    uint32_t at = line->begin;
    while (at != line->end && end_of(byte_at(line, at)) <= chip.now) {
        at++;
    }
    return line->end - at;
}

void serial_pull(bool is_out) {
    struct serial *line = &serial_to_chip;
    is_pulled = is_out;
    if (!is_out) {
        return;
    }
    while (line->begin != line->end && byte_at(line, line->end - 1)->from >= chip.now) {
        line->end--;
    }
    if (line->begin != line->end) {
        byte_at(line, line->end - 1)->cut = chip.now;
    }
}

void serial_reset(void) {
    serial_to_chip.bit = 0;
    serial_from_chip.seeks = chip.now;
    serial_from_chip.bit = UNITS_A_SECOND / around.baud;
    serial_seek(&serial_from_chip);
}

void serial_clear(void) {
    serial_to_chip.begin = serial_to_chip.end = serial_from_chip.begin = serial_from_chip.end = 0;
    serial_to_chip.seeks = serial_from_chip.seeks = 0;
    heard.begin = heard.end = 0;
    is_pulled = false;
}
