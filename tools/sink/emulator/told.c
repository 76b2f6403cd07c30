#include "told.h"

#include <stdarg.h>
#include <stdio.h>
#include <string.h>

#include "chip.h"
#include "core.h"

enum { ROOM = 1 << 20, TEXT = 240 };

void (*told_edge)(const struct edge *edge);
static struct edge edges[ROOM];
static size_t begin, end;
static char first[TEXT + 60];

void violation(const char *format, ...) {
    char text[TEXT];
    va_list words;
    va_start(words, format);
    vsnprintf(text, sizeof text, format, words);
    va_end(words);
    if (first[0] == '\0') {
        snprintf(first, sizeof first, "at %.3f us, %08x: %s", (double)chip.now / (double)UNITS_A_US,
                 (unsigned)core.at, text);
    }
    chip.is_stopped = true;
}

const char *told_violation(void) {
    return first;
}

void told_note(uint8_t port, uint8_t pin, uint32_t level) {
    struct edge edge = {chip_ns(chip.now), port, pin, (uint16_t)level};
    if (told_edge != NULL) {
        told_edge(&edge);
    } else if (end < ROOM) {
        edges[end] = edge;
        end++;
    } else {
        violation("more edges than the model keeps");
    }
}

size_t told_edges(struct edge *to, size_t room) {
    size_t count = end - begin < room ? end - begin : room;
    memcpy(to, edges + begin, count * sizeof *to);
    begin += count;
    if (begin == end) {
        begin = end = 0;
    }
    return count;
}

void told_forgive(void) {
    first[0] = '\0';
}

void told_clear(void) {
    begin = end = 0;
    told_forgive();
}
