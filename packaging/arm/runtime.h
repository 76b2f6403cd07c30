/* What a program of the kit calls beside the C library of its system, for processors for which the kit has no C parts
 * of its own. Each stands for the function of that name in the kit's libraries `libc` (heap) and `os` (errno,
 * arguments), whose contract the proofs go by; what each has to keep of it is said here. Trusted, as the kit's C parts
 * are. */
#ifndef NGC_RUNTIME_H
#define NGC_RUNTIME_H

#include <stdbool.h>
#include <stddef.h>
#include <stdint.h>
#include <sys/types.h>

/* Whether there is memory, and where. Where there is none `block` isn't null, and nothing is owned there. */
struct tried {
    bool is_there;
    void *block;
};

/* A new block of `size` bytes, below 2^63, aligned to `align`, which divides 16. One of 0 bytes is a block of its own
 * too, other than each that is there, and is freed as all are. It may fail at any time. */
struct tried rattle_alloc(size_t size, size_t align);

/* Makes a block that either of these gave one of `size` bytes, which may be 0; its first `kept` bytes, no more than it
 * had and no more than `size`, are as they were. It may move. Where it fails the block is as it was. */
struct tried rattle_realloc(void *block, size_t kept, size_t size, size_t align);

/* Frees a block that either gave. */
void rattle_dealloc(void *block);

/* The calling thread's errno. */
int32_t rattle_errno(void);
void rattle_set_errno(int32_t error);

/* Puts word `number`, from 0, of those that the program was started with, its own name among them, at the start of
 * `bytes`, without an end, and answers its length; -1 where there is no such word; -2 where it has more than `room`
 * bytes: then all `room` bytes are its first ones. Nothing else is written. */
ssize_t rattle_arg(size_t number, uint8_t *bytes, size_t room);

#endif
