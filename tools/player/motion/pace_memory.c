#include "pace_memory.h"

#include <stdalign.h>

enum {
    BLOCKS = 4,     /* two for each engine: of OUT, and of moves beside it */
    BYTES = 655360, /* the greater of the two wants 80 for each of its 8,192 lines */
    ALIGNMENT = 16
};

static alignas(ALIGNMENT) unsigned char room[BLOCKS][BYTES];
static bool is_taken[BLOCKS];

struct tried rattle_alloc(size_t size, size_t alignment) {
    for (int block = 0; size <= BYTES && alignment <= ALIGNMENT && block < BLOCKS; block++) {
        if (!is_taken[block]) {
            is_taken[block] = true;
            return (struct tried){true, room[block]};
        }
    }
    return (struct tried){false, room};
}

/* Nothing of the pacer grows. */
struct tried rattle_realloc(void *at, size_t kept, size_t size, size_t alignment) {
    (void)kept, (void)size, (void)alignment;
    return (struct tried){false, at};
}

void rattle_dealloc(void *at) {
    for (int block = 0; block < BLOCKS; block++) {
        if (at == room[block]) {
            is_taken[block] = false;
        }
    }
}
