#include "utf8.h"

size_t utf8_size(const char *text, size_t size) {
    const unsigned char *byte = (const unsigned char *)text;
    if (size == 0) {
        return 0;
    }
    if (byte[0] < 0x80) {
        return 1;
    }
    size_t wanted = byte[0] >= 0xf0 ? 4 : byte[0] >= 0xe0 ? 3 : 2;
    if (byte[0] < 0xc2 || byte[0] > 0xf4 || size < wanted) {
        return 0;
    }
    for (size_t at = 1; at < wanted; at++) {
        if ((byte[at] & 0xc0) != 0x80) {
            return 0;
        }
    }
    /* Too long a form, a half of a pair, above the last character. */
    if ((byte[0] == 0xe0 && byte[1] < 0xa0) || (byte[0] == 0xed && byte[1] > 0x9f)
        || (byte[0] == 0xf0 && byte[1] < 0x90) || (byte[0] == 0xf4 && byte[1] > 0x8f)) {
        return 0;
    }
    return wanted;
}
