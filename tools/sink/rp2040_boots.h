/* The number of the boot, which an RP2040 keeps in its flash: it has no memory with a battery. */
#ifndef RP2040_BOOTS_H
#define RP2040_BOOTS_H

#include <stdint.h>

enum {
    BOOT_SECTOR = 4096, /* bytes of the flash that are erased at once */
    BOOT_PAGE = 256     /* that are written at once */
};

/* Counts this boot, and returns its number, one more than that of the last; from 65,535 it goes to 0. The flash must be
 * left alone meanwhile: no interrupts. It takes some milliseconds, and once in 1,024 boots, where a sector is erased,
 * up to half a second. Power may go off at any time: a number isn't given twice. Where the flash doesn't take it, it
 * doesn't return. */
uint16_t boots_count(void);

#endif
