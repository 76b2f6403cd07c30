/* The instructions in the flash and, where a chip runs such, in the RAM: each decoded once. */
#ifndef CODE_H
#define CODE_H

#include <stdint.h>

#include "decode.h"

/* The instruction at an address; NULL where none is run. */
const struct op *code_at(uint32_t address);

/* Flash and RAM have other bytes; so many bytes of the RAM at an offset. */
void code_clear(void);
void code_change(uint32_t at, uint32_t width);

#endif
