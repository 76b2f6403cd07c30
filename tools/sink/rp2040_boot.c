/* The boot block of an RP2040: 252 bytes at the flash's begin, and a checksum behind them (rp2040_image.py). The chip's
 * ROM copies it to RAM and calls it there. It lets the flash be read as memory, by the command that all chips of flash
 * have, and begins the program behind it. By the datasheet's chapters on the boot sequence and on the SSI. */
#include "rp2040.h"

enum {
    READ = 0x03,     /* the command: three bytes of address, then data */
    CLOCK_BY = 4     /* of 128 MHz: 32 MHz, which each flash bears */
};

struct vectors {
    uint32_t stack;
    uint32_t start;
};

extern const struct vectors start_vectors;

void boot(void);

__attribute__((section(".boot"), noreturn)) void boot(void) {
    SSI_SSIENR = 0;
    SSI_BAUDR = CLOCK_BY;
    SSI_CTRLR0 = 31u << 16 | 3u << 8;                 /* words of 32 bits; a command, then data */
    SSI_CTRLR1 = 0;                                   /* one word at a time */
    SSI_SPI_CTRLR0 = (uint32_t)READ << 24 | 2u << 8 | 6u << 2; /* a command of 8 bits, an address of 24, on one wire */
    SSI_SSIENR = 1;
    VTOR = (uint32_t)(uintptr_t)&start_vectors;
    __asm volatile("mov sp, %0\n bx %1" : : "r"(start_vectors.stack), "r"(start_vectors.start));
    __builtin_unreachable();
}
