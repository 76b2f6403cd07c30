#include "scan.h"

#include <string.h>

bool scan_word(struct scan *scan, const char *word) {
    size_t size = strlen(word);
    if ((size_t)(scan->end - scan->at) < size || memcmp(scan->at, word, size) != 0) {
        return false;
    }
    scan->at += size;
    return true;
}

bool scan_whole(struct scan *scan, size_t most_digits, uint64_t *value) {
    const char *at = scan->at;
    uint64_t sum = 0;
    bool is_too_large = false;
    while (at < scan->end && *at >= '0' && *at <= '9') {
        uint64_t digit = (uint64_t)(*at - '0');
        is_too_large = is_too_large || sum > (UINT64_MAX - digit) / 10;
        sum = is_too_large ? 0 : sum * 10 + digit;
        at++;
    }
    size_t digits = (size_t)(at - scan->at);
    if (digits == 0 || digits > most_digits || (digits > 1 && *scan->at == '0') || is_too_large) {
        return false;
    }
    *value = sum;
    scan->at = at;
    return true;
}

bool scan_is_over(const struct scan *scan) {
    return scan->at == scan->end;
}
