/* Runs a program again and again over a device in memory, for tests of `ngc run` with a cut of power, a call that
 * fails, or any image. This library is loaded before the C library's own (LD_PRELOAD). The process that it is loaded
 * into never gets to its program's first instruction: for each byte of the socket whose number LINE gives, it forks one
 * that does, and answers how that ended, as wait has it.
 *
 * The file that SHARED names is `struct shared`. It has the content of the device `mill.dev`, which has to be there as
 * a file of the same length, and what it would hold without what wasn't synced; the standard input; what was written
 * to the standard output and to `out`; and the calls of all of these, in order. No file is written. Calls of the device
 * and of `out` are numbered from 0 on. The one of the number `fails_at` fails, with EIO and without effect, and with
 * `fails_on` each after it too. Of the growths of memory, also numbered from 0 on, the one of `refused` is refused. */
#define _GNU_SOURCE
#include <dlfcn.h>
#include <errno.h>
#include <fcntl.h>
#include <stdarg.h>
#include <stdbool.h>
#include <stdint.h>
#include <stdlib.h>
#include <string.h>
#include <sys/mman.h>
#include <sys/socket.h>
#include <sys/stat.h>
#include <sys/wait.h>
#include <unistd.h>

enum { SECTOR = 512, IMAGE = 2972672, INPUT = 2 << 20, SAID = 4 << 20, OUT = 4 << 20 };
enum { CALLS = 1 << 16, WRITES = 1 << 14, PAGE = 4096 };
enum { READ = 0, WRITE = 1, SYNC = 2, OUT_WRITE = 3, OUT_SYNC = 4, INPUT_READ = 5, SAID_WRITE = 6 };

struct call {
    uint16_t kind;
    uint16_t is_failed;
    uint32_t sector; /* of a read or a write of the device; of another call how many bytes it took */
};

struct shared {
    uint64_t fails_at;    /* none if it is UINT64_MAX */
    uint64_t fails_on;
    uint64_t is_traced;   /* whether the calls are told */
    uint64_t refused;     /* none if it is UINT64_MAX */
    uint64_t reads_left;  /* of the standard input, before one fails; UINT64_MAX for any number */
    uint64_t most_read;   /* bytes at a read of it; a line if it is 0 */
    uint64_t said_room;   /* bytes that the standard output takes before it fails */
    uint64_t input_size, said_size, out_size;
    uint64_t calls, writes;
    uint64_t numbered, failures, growths;
    _Alignas(PAGE) uint8_t image[IMAGE];
    uint8_t synced[IMAGE]; /* what the device holds if nothing is kept that wasn't synced */
    uint8_t input[INPUT];
    uint8_t said[SAID];
    uint8_t out[OUT];
    struct call call[CALLS];
    uint8_t written[WRITES][SECTOR]; /* what the writes wrote, those that failed left out */
};

static struct shared *shared;
static uint64_t input_at, calls_synced;
static off_t place, size;
static int device = -1, out = -1;

/* The C library's own functions. */
static struct {
    int (*open)(const char *, int, ...);
    off_t (*lseek)(int, off_t, int);
    ssize_t (*read)(int, void *, size_t);
    ssize_t (*write)(int, const void *, size_t);
    int (*fsync)(int);
    int (*fdatasync)(int);
} libc;

static void find_libc(void) {
    *(void **)&libc.open = dlsym(RTLD_NEXT, "open");
    *(void **)&libc.lseek = dlsym(RTLD_NEXT, "lseek");
    *(void **)&libc.read = dlsym(RTLD_NEXT, "read");
    *(void **)&libc.write = dlsym(RTLD_NEXT, "write");
    *(void **)&libc.fsync = dlsym(RTLD_NEXT, "fsync");
    *(void **)&libc.fdatasync = dlsym(RTLD_NEXT, "fdatasync");
}

static void note(uint16_t kind, bool is_failed, uint64_t sector) {
    if (!shared->is_traced) {
        return;
    }
    if (shared->calls == CALLS) {
        abort();
    }
    shared->call[shared->calls++] = (struct call){kind, is_failed, (uint32_t)sector};
}

/* Notes a call that has a number; whether it fails. */
static bool fails(uint16_t kind, uint64_t sector) {
    uint64_t number = shared->numbered++;
    bool is_failing = number == shared->fails_at || (shared->fails_on && number > shared->fails_at);
    note(kind, is_failing, sector);
    shared->failures += is_failing;
    if (is_failing) {
        errno = EIO;
    }
    return is_failing;
}

static ssize_t put(uint8_t *all, uint64_t *used, uint64_t room, const void *bytes, size_t count) {
    if (*used + count > room) {
        abort();
    }
    memcpy(all + *used, bytes, count);
    *used += count;
    return (ssize_t)count;
}

static ssize_t read_input(void *into, size_t most) {
    if (shared->reads_left == 0) {
        note(INPUT_READ, true, 0);
        errno = EIO;
        return -1;
    }
    shared->reads_left -= shared->reads_left != UINT64_MAX;
    const uint8_t *from = shared->input + input_at;
    uint64_t count = shared->input_size - input_at;
    count = count < most ? count : most;
    const uint8_t *newline = memchr(from, '\n', count);
    uint64_t line = newline == NULL ? count : (uint64_t)(newline - from) + 1;
    uint64_t wanted = shared->most_read == 0 ? line : shared->most_read;
    count = count < wanted ? count : wanted;
    memcpy(into, from, count);
    input_at += count;
    note(INPUT_READ, false, count);
    return (ssize_t)count;
}

static ssize_t say(const void *bytes, size_t count) {
    count = count < shared->said_room ? count : shared->said_room;
    note(SAID_WRITE, count == 0, count);
    if (count == 0) {
        errno = EIO;
        return -1;
    }
    shared->said_room -= count;
    return put(shared->said, &shared->said_size, SAID, bytes, count);
}

static ssize_t write_device(const void *bytes, size_t count) {
    if (count != SECTOR || place > size || place + SECTOR > IMAGE) {
        abort();
    }
    if (fails(WRITE, (uint64_t)place / SECTOR)) {
        return -1;
    }
    if (shared->is_traced && shared->writes == WRITES) {
        abort();
    }
    if (shared->is_traced) {
        memcpy(shared->written[shared->writes++], bytes, SECTOR);
    }
    memcpy(shared->image + place, bytes, SECTOR);
    place += SECTOR;
    size = size < place ? place : size;
    return SECTOR;
}

int open(const char *path, int how, ...) {
    va_list more;
    va_start(more, how);
    mode_t mode = how & O_CREAT ? va_arg(more, mode_t) : 0;
    va_end(more);
    int file = libc.open(path, how, mode);
    struct stat what;
    if (file >= 0 && strcmp(path, "mill.dev") == 0 && fstat(file, &what) == 0) {
        device = file;
        size = what.st_size;
        place = 0;
    }
    if (file >= 0 && strcmp(path, "out") == 0) {
        out = file;
    }
    return file;
}

off_t lseek(int file, off_t at, int from) {
    if (file != device || device < 0) {
        return libc.lseek(file, at, from);
    }
    place = from == SEEK_SET ? at : from == SEEK_CUR ? place + at : size + at;
    return place;
}

ssize_t read(int file, void *into, size_t most) {
    if (shared != NULL && file == STDIN_FILENO) {
        return read_input(into, most);
    }
    if (file != device || device < 0) {
        return libc.read(file, into, most);
    }
    if (most > (size_t)(size - place)) {
        most = (size_t)(size - place);
    }
    if (fails(READ, (uint64_t)place / SECTOR)) {
        return -1;
    }
    memcpy(into, shared->image + place, most);
    place += (off_t)most;
    return (ssize_t)most;
}

ssize_t write(int file, const void *bytes, size_t count) {
    if (shared != NULL && file == STDOUT_FILENO) {
        return say(bytes, count);
    }
    if (out >= 0 && file == out) {
        return fails(OUT_WRITE, count) ? -1 : put(shared->out, &shared->out_size, OUT, bytes, count);
    }
    return device >= 0 && file == device ? write_device(bytes, count) : libc.write(file, bytes, count);
}

/* Makes what was written since the last sync lasting. */
static void keep_written(void) {
    for (; calls_synced < shared->calls; calls_synced++) {
        const struct call *made = &shared->call[calls_synced];
        if (made->kind == WRITE && !made->is_failed) {
            size_t at = (size_t)SECTOR * made->sector;
            memcpy(shared->synced + at, shared->image + at, SECTOR);
        }
    }
}

static int synced(int file, int (*sync_file)(int)) {
    if (file < 0 || (file != device && file != out)) {
        return sync_file(file);
    }
    if (fails(file == out ? OUT_SYNC : SYNC, 0)) {
        return -1;
    }
    if (file == device) {
        keep_written();
    }
    return 0;
}

int fsync(int file) {
    return synced(file, libc.fsync);
}

int fdatasync(int file) {
    return synced(file, libc.fdatasync);
}

/* Whether a growth is refused. */
static bool is_refused(void) {
    return shared != NULL && shared->growths++ == shared->refused;
}

void *__libc_malloc(size_t bytes);
void *__libc_realloc(void *block, size_t bytes);

void *malloc(size_t bytes) {
    return is_refused() ? NULL : __libc_malloc(bytes);
}

void *realloc(void *block, size_t bytes) {
    return is_refused() ? NULL : __libc_realloc(block, bytes);
}

static void serve(int line) {
    char asked;
    while (recv(line, &asked, 1, 0) == 1) {
        pid_t child = fork();
        if (child == 0) {
            return;
        }
        int status;
        if (child < 0 || waitpid(child, &status, 0) != child || send(line, &status, sizeof status, 0) < 0) {
            abort();
        }
    }
    _exit(0);
}

__attribute__((constructor)) static void begin(void) {
    find_libc();
    const char *path = getenv("SHARED"), *number = getenv("LINE");
    int file = path != NULL && number != NULL ? open(path, O_RDWR | O_CLOEXEC) : -1;
    void *mapped = file < 0 ? MAP_FAILED : mmap(NULL, sizeof *shared, PROT_READ | PROT_WRITE, MAP_SHARED, file, 0);
    if (mapped == MAP_FAILED) {
        abort();
    }
    close(file);
    serve(atoi(number));
    shared = mapped;
}
