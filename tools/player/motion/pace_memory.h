/* The memory that the proved crate ng_pace asks for where a stream begins: two blocks, in which it keeps its lines.
 * They come from a room of their own, so that nothing is asked of the system while motors may move, and nothing is
 * refused. A stream gives its blocks back before another takes its place. */
#ifndef PACE_MEMORY_H
#define PACE_MEMORY_H

#include <stdbool.h>
#include <stddef.h>

/* Whether there is memory, and where. */
struct tried {
    bool is_there;
    void *at;
};

/* What the archives of the proved crates call. */
struct tried rattle_alloc(size_t size, size_t alignment);
struct tried rattle_realloc(void *at, size_t kept, size_t size, size_t alignment);
void rattle_dealloc(void *at);

#endif
