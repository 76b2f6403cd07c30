/* Tries each function of runtime.h at its edges: try_runtime "" abc REST... It is to be started with these words, and
 * prints what isn't as it should be; the status is then 1. */
#include <errno.h>
#include <stdio.h>
#include <string.h>

#include "runtime.h"

static int wrong;

static void check(bool holds, const char *what) {
    if (!holds) {
        printf("wrong: %s\n", what);
        wrong = 1;
    }
}

static bool is_filled(const unsigned char *bytes, size_t size, unsigned char value) {
    bool is = true;
    for (size_t place = 0; place < size; place++) {
        is = is && bytes[place] == value;
    }
    return is;
}

/* Blocks of 0 bytes, each of its own, of each alignment; they grow, shrink to 0, and are freed. */
static void try_nothing(size_t align) {
    struct tried one = rattle_alloc(0, align);
    struct tried other = rattle_alloc(0, align);
    check(one.is_there && other.is_there, "there is room for nothing");
    check(one.block != NULL && one.block != other.block, "a block of 0 bytes is one of its own");
    check((uintptr_t)one.block % align == 0, "it is aligned");
    one = rattle_realloc(one.block, 0, 100, align);
    check(one.is_there && (uintptr_t)one.block % align == 0, "it grows");
    memset(one.block, 7, 100);
    one = rattle_realloc(one.block, 0, 0, align);
    check(one.is_there && one.block != NULL && one.block != other.block, "it shrinks to 0 bytes, and is there");
    one = rattle_realloc(one.block, 0, 3, align);
    check(one.is_there, "and grows again");
    rattle_dealloc(one.block);
    rattle_dealloc(other.block);
}

/* What is kept of a block that grows and shrinks, also one that the system maps by itself. */
static void try_kept(size_t size, size_t align) {
    struct tried it = rattle_alloc(size, align);
    check(it.is_there && (uintptr_t)it.block % align == 0, "a block");
    memset(it.block, 0xa5, size);
    it = rattle_realloc(it.block, size, 4 * size, align);
    check(it.is_there && is_filled(it.block, size, 0xa5), "what it had is kept as it grows");
    check((uintptr_t)it.block % align == 0, "it is aligned still");
    memset(it.block, 0x5a, 4 * size);
    it = rattle_realloc(it.block, size / 2, size / 2, align);
    check(it.is_there && is_filled(it.block, size / 2, 0x5a), "what is left is kept as it shrinks");
    rattle_dealloc(it.block);
}

/* What no memory is enough for. */
static void try_refused(void) {
    volatile size_t too_much = (size_t)1 << 62;
    struct tried none = rattle_alloc(too_much, 16);
    check(!none.is_there && none.block != NULL, "a block that there is no memory for: no null");
    struct tried it = rattle_alloc(48, 16);
    memset(it.block, 0x3c, 48);
    none = rattle_realloc(it.block, 48, too_much, 16);
    check(!none.is_there && none.block != NULL, "one that can't grow: no null");
    check(is_filled(it.block, 48, 0x3c), "and it is as it was");
    it = rattle_realloc(it.block, 48, 96, 16);
    check(it.is_there && is_filled(it.block, 48, 0x3c), "and goes on");
    rattle_dealloc(it.block);
}

static void try_errno(void) {
    const int32_t errors[] = {0, EINVAL, -1, INT32_MAX, INT32_MIN, 0};
    for (size_t place = 0; place < sizeof errors / sizeof errors[0]; place++) {
        rattle_set_errno(errors[place]);
        check(rattle_errno() == errors[place] && errno == errors[place], "errno is what was set");
    }
}

/* A word into a room; the byte behind it stays. */
static void try_word(size_t number, size_t room, ssize_t answer, const char *wanted) {
    uint8_t bytes[16];
    memset(bytes, '#', sizeof bytes);
    check(rattle_arg(number, bytes, room) == answer, "the answer for a word");
    size_t written = strlen(wanted);
    check(memcmp(bytes, wanted, written) == 0, "its bytes");
    check(is_filled(bytes + written, sizeof bytes - written, '#'), "and no byte more");
}

/* Word 1 is empty, and word 2 is "abc". */
static void try_words(size_t count) {
    try_word(1, 8, 0, "");
    try_word(1, 0, 0, "");
    try_word(2, 8, 3, "abc");
    try_word(2, 3, 3, "abc");
    try_word(2, 2, -2, "ab");
    try_word(2, 0, -2, "");
    try_word(count, 8, -1, "");
    try_word(SIZE_MAX, 8, -1, "");
}

int main(int count, char **given) {
    if (count < 3 || given[1][0] != '\0' || strcmp(given[2], "abc") != 0) {
        printf("usage: try_runtime \"\" abc REST...\n");
        return 2;
    }
    for (size_t align = 1; align <= 16; align *= 2) {
        try_nothing(align);
        try_kept(64, align);
        try_kept(1 << 20, align);
    }
    try_refused();
    try_errno();
    try_words((size_t)count);
    printf("the runtime's functions: %s\n", wrong ? "WRONG" : "as they should be");
    return wrong;
}
