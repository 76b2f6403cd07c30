/* UTF-8. */
#ifndef UTF8_H
#define UTF8_H

#include <stddef.h>

/* How many bytes the character has that begins there; 0 if the bytes are no UTF-8. */
size_t utf8_size(const char *text, size_t size);

#endif
