#include "runtime.h"

#include <errno.h>
#include <stdlib.h>
#include <string.h>

_Static_assert(_Alignof(max_align_t) >= 16, "malloc's blocks are aligned to 16 bytes");

static char nowhere; /* what is pointed to where there is no memory */
static size_t word_count;
static char **words;

/* glibc gives these to what runs before main. */
__attribute__((constructor)) static void keep_words(int count, char **given) {
    word_count = count > 0 ? (size_t)count : 0;
    words = given;
}

static struct tried tried(void *block) {
    return (struct tried){.is_there = block != NULL, .block = block != NULL ? block : &nowhere};
}

/* Of 0 bytes malloc may answer null, and realloc frees: a block for none has as many bytes as it is aligned to. */
static size_t at_least_one(size_t size, size_t align) {
    return size > 0 ? size : align;
}

struct tried rattle_alloc(size_t size, size_t align) {
    return tried(malloc(at_least_one(size, align)));
}

struct tried rattle_realloc(void *block, size_t kept, size_t size, size_t align) {
    (void)kept; /* realloc keeps all that both have room for */
    return tried(realloc(block, at_least_one(size, align)));
}

void rattle_dealloc(void *block) {
    free(block);
}

int32_t rattle_errno(void) {
    return errno;
}

void rattle_set_errno(int32_t error) {
    errno = error;
}

ssize_t rattle_arg(size_t number, uint8_t *bytes, size_t room) {
    if (number >= word_count) {
        return -1;
    }
    size_t length = strlen(words[number]);
    memcpy(bytes, words[number], length < room ? length : room);
    return length <= room ? (ssize_t)length : -2;
}
