/* Counts the growths of memory of a process, and refuses one. A growth is a call of malloc or realloc. This library is
   preloaded, so that its functions replace those of the C library. The file that GROWTHS names holds two numbers: how
   many growths were asked for, and which of them, from 1 on, is refused. The parent of the process reads and sets them
   while it runs. */
#include <fcntl.h>
#include <stdlib.h>
#include <sys/mman.h>
#include <unistd.h>

void *__libc_malloc(size_t size);
void *__libc_realloc(void *block, size_t size);

struct growths {
    unsigned long asked, refused;
};

static volatile struct growths *counted(void) {
    static struct growths *shared;
    if (!shared) {
        const char *path = getenv("GROWTHS");
        int file = path ? open(path, O_RDWR) : -1;
        void *page = mmap(NULL, sizeof *shared, PROT_READ | PROT_WRITE, MAP_SHARED, file, 0);
        if (page == MAP_FAILED)
            abort();
        close(file);
        shared = page;
    }
    return shared;
}

static int is_refused(void) {
    volatile struct growths *growths = counted();
    return ++growths->asked == growths->refused;
}

void *malloc(size_t size) {
    return is_refused() ? NULL : __libc_malloc(size);
}

void *realloc(void *block, size_t size) {
    return is_refused() ? NULL : __libc_realloc(block, size);
}
