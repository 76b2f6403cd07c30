/* The export of the proved crate ng_lines_c, which libng_lines_c.a has. What it promises stands in
 * crates/ng_lines_c/specs/Reading.antt. */
#ifndef NG_LINES_H
#define NG_LINES_H

#include <stdbool.h>
#include <stddef.h>
#include <stdint.h>

/* A line of OUT: its letter, P, D or S; the steps of P; the microseconds of P and D; the outputs of S, the speed in
 * millionths. What isn't its own is 0. */
struct ng_line {
    uint64_t us;
    int64_t speed;
    uint32_t letter;
    int32_t step[3];
    uint32_t spindle;
    uint32_t selected;
    uint32_t slot;
    bool mist;
    bool flood;
};

/* Reads a line without its newline; false, with nothing told, exactly if it is that of no item. The caller owes that so
 * many bytes lie at `text`. */
bool ng_line_read(const uint8_t *text, size_t size, struct ng_line *line);

#endif
