/* A disk and a plug, for tests: a library that is loaded before the C library's own (LD_PRELOAD). What a program writes
 * to the files `mill.dev`, `out` and `position` of its folder, and when it syncs them, is told in the file that
 * NGC_POWER names; so is each line that goes to `pins`. The test builds from it what a loss of power left of the disk.
 *
 * NGC_POWER_DO has deeds, parted by `;`, as `ngc out write 37 kill`: at the 37th time that this program (ngc, console
 * or player) is about to write to this file, or to `read`, `sync` or `cut` it, counted from 1, power is lost; or the
 * call fails with such a number of an error, as `5`, that one time, or with `5+` from then on. `lie` does nothing of
 * a sync, and says that it did. Of pins alone `skip` makes nothing of a line, and `still` sets no spindle. */
#define _GNU_SOURCE
#include <dlfcn.h>
#include <errno.h>
#include <fcntl.h>
#include <signal.h>
#include <stdatomic.h>
#include <stdbool.h>
#include <stdint.h>
#include <stdio.h>
#include <stdlib.h>
#include <string.h>
#include <sys/mman.h>
#include <sys/stat.h>
#include <time.h>
#include <unistd.h>

enum { FILES = 4, PINS = 3, WRITE = 0, SYNC = 1, CUT = 2, PUNCH = 3, READ = 4, OPS = 5, DEEDS = 8, VICTIMS = 64 };
enum { BEGUN = 1, DONE = 2, FAILED = 3 };

#define SPARED UINT64_MAX

static const char *const names[FILES] = {"mill.dev", "out", "position", "pins"};
static const char *const op_names[OPS] = {"write", "sync", "cut", "punch", "read"};

/* The beginning of the log. The motors lose their power before they make line `stop_at` of the pins, if it isn't 0;
 * `is_all` says that all else loses it then too. While it is SPARED nothing befalls anybody. */
struct head {
    _Atomic uint64_t end;
    _Atomic uint64_t made;
    _Atomic uint64_t stop_at;
    _Atomic uint32_t is_all;
    _Atomic uint32_t is_off;          /* the motors have no power */
    _Atomic uint32_t is_lost;         /* power was lost for all */
    _Atomic uint32_t count;
    _Atomic int32_t victims[VICTIMS]; /* processes, the last that began */
};

struct entry {
    uint32_t size; /* of all, with the bytes behind it */
    _Atomic uint32_t state;
    uint32_t file;
    uint32_t op;
    int64_t at;
    int64_t length;
    uint64_t begun_ns;
    _Atomic uint64_t ended_ns;
};

struct deed {
    int file;
    int op;
    unsigned long at;
    bool goes_on;
    int error; /* 0 for a deed of a word */
    char word[8];
};

static struct head *head;
static size_t room;
static struct deed deeds[DEEDS];
static int deed_count;
static _Atomic unsigned long counts[FILES][OPS];

static uint64_t now_ns(void) {
    struct timespec now;
    clock_gettime(CLOCK_MONOTONIC, &now);
    return (uint64_t)now.tv_sec * 1000000000 + (uint64_t)now.tv_nsec;
}

static void *real(const char *name) {
    return dlsym(RTLD_NEXT, name);
}

static int index_of(const char *const *all, int count, const char *name) {
    int at = 0;
    while (at < count && strcmp(all[at], name) != 0) {
        at++;
    }
    return at;
}

static const char *program(void) {
    const char *role = getenv("NGC_POWER_ROLE");
    return strcmp(program_invocation_short_name, "ngc") == 0 || role == NULL ? "ngc" : role;
}

static void read_deed(const char *text) {
    char who[16], file[16], op[16], what[16];
    struct deed *deed = &deeds[deed_count];
    if (deed_count == DEEDS || sscanf(text, "%15s %15s %15s %lu %15s", who, file, op, &deed->at, what) != 5
        || strcmp(who, program()) != 0) {
        return;
    }
    deed->file = index_of(names, FILES, file);
    deed->op = index_of(op_names, OPS, op);
    deed->error = atoi(what);
    deed->goes_on = what[strlen(what) - 1] == '+';
    snprintf(deed->word, sizeof deed->word, "%.7s", what);
    deed_count++;
}

static void read_deeds(void) {
    char text[512];
    const char *given = getenv("NGC_POWER_DO");
    snprintf(text, sizeof text, "%s", given == NULL ? "" : given);
    char *rest = NULL;
    deed_count = 0;
    for (char *each = strtok_r(text, ";", &rest); each != NULL; each = strtok_r(NULL, ";", &rest)) {
        read_deed(each);
    }
}

/* Opens the log, once NGC_POWER is set. */
static bool begin(void) {
    const char *path = head == NULL ? getenv("NGC_POWER") : NULL;
    if (path == NULL) {
        return head != NULL;
    }
    int file = open(path, O_RDWR | O_CLOEXEC);
    struct stat what;
    if (file >= 0 && fstat(file, &what) == 0) {
        room = (size_t)what.st_size;
        void *mapped = mmap(NULL, room, PROT_READ | PROT_WRITE, MAP_SHARED, file, 0);
        head = mapped == MAP_FAILED ? NULL : mapped;
    }
    if (file >= 0) {
        close(file);
    }
    if (head != NULL) {
        atomic_store(&head->victims[atomic_fetch_add(&head->count, 1) % VICTIMS], getpid());
        read_deeds();
    }
    return head != NULL;
}

/* Which file it is; FILES for another one. */
static int file_of(int file) {
    struct stat what, named;
    int error = errno;
    int found = FILES;
    if (begin() && fstat(file, &what) == 0 && S_ISREG(what.st_mode)) {
        for (found = 0; found < FILES; found++) {
            if (stat(names[found], &named) == 0 && named.st_ino == what.st_ino && named.st_dev == what.st_dev) {
                break;
            }
        }
    }
    errno = error;
    return found;
}

/* Who is killed before an entry has its size leaves zeros in all of its room; who reads the log passes over them. */
static struct entry *tell(int file, int op, int64_t at, const void *bytes, size_t length) {
    size_t data = op == WRITE ? length : 0;
    size_t size = (sizeof(struct entry) + data + 7) / 8 * 8;
    uint64_t place = atomic_fetch_add(&head->end, size);
    if (place + size > room) {
        _exit(97); /* the log is full */
    }
    struct entry *entry = (struct entry *)((char *)head + place);
    entry->size = (uint32_t)size;
    atomic_signal_fence(memory_order_seq_cst); /* before all else of it */
    entry->file = (uint32_t)file;
    entry->op = (uint32_t)op;
    entry->at = at;
    entry->length = (int64_t)length;
    entry->begun_ns = now_ns();
    memcpy(entry + 1, bytes, data);
    atomic_store(&entry->state, BEGUN);
    return entry;
}

static void end(struct entry *entry, int64_t result) {
    int error = errno;
    if (result > 0 && entry->op == WRITE) {
        entry->length = result;
    }
    atomic_store(&entry->ended_ns, now_ns());
    atomic_store(&entry->state, result < 0 ? FAILED : DONE);
    errno = error;
}

/* Whether a process works in this folder, and so is one of the test's: another one may have the number by now. */
static bool is_here(pid_t victim) {
    char path[32], here[512], there[512];
    snprintf(path, sizeof path, "/proc/%d/cwd", (int)victim);
    ssize_t one = readlink("/proc/self/cwd", here, sizeof here);
    ssize_t other = readlink(path, there, sizeof there);
    return one > 0 && one == other && memcmp(here, there, (size_t)one) == 0;
}

static void lose_power(void) {
    atomic_store(&head->is_lost, 1);
    for (int at = 0; at < VICTIMS; at++) {
        pid_t victim = atomic_load(&head->victims[at]);
        if (victim > 0 && victim != getpid() && is_here(victim)) {
            kill(victim, SIGKILL);
        }
    }
    raise(SIGKILL);
}

/* What befalls this call: a deed, or NULL. */
static const struct deed *befalls(int file, int op) {
    unsigned long at = atomic_fetch_add(&counts[file][op], 1) + 1;
    const struct deed *found = NULL;
    if (atomic_load(&head->stop_at) == SPARED) {
        return NULL;
    }
    for (int each = 0; each < deed_count; each++) {
        const struct deed *deed = &deeds[each];
        if (deed->file == file && deed->op == op && (deed->at == at || (deed->goes_on && deed->at < at))) {
            found = deed;
        }
    }
    if (found != NULL && strcmp(found->word, "kill") == 0) {
        lose_power();
    }
    return found;
}

/* Whether a call fails by a deed, with errno, which is 0 for a lie; tells it. */
static bool fails(int file, int op) {
    const struct deed *deed = file < FILES ? befalls(file, op) : NULL;
    if (deed == NULL || (deed->error == 0 && strncmp(deed->word, "lie", 3) != 0)) {
        return false;
    }
    if (op != READ) {
        end(tell(file, op, -1, "", 0), -1);
    }
    errno = deed->error;
    return true;
}

/* A line that the motors make. */
static ssize_t make(int file, const void *bytes, size_t size, ssize_t (*real_write)(int, const void *, size_t)) {
    char line[64];
    uint64_t made = atomic_fetch_add(&head->made, 1) + 1;
    uint64_t stop_at = atomic_load(&head->stop_at);
    if (stop_at != 0 && made >= stop_at && atomic_load(&head->is_all)) {
        lose_power();
    }
    if (stop_at != 0 && made >= stop_at) {
        atomic_store(&head->is_off, 1);
    }
    while (atomic_load(&head->is_off)) {
        pause();
    }
    const struct deed *deed = befalls(PINS, WRITE);
    if (deed != NULL && strcmp(deed->word, "skip") == 0) {
        return (ssize_t)size;
    }
    if (deed != NULL && strncmp(deed->word, "still", 5) == 0 && size < sizeof line && *(const char *)bytes == 'S') {
        memcpy(line, bytes, size);
        line[2] = '0';
        return real_write(file, line, size);
    }
    return real_write(file, bytes, size);
}

static int64_t place_of(int file) {
    struct stat what;
    int how = fcntl(file, F_GETFL);
    return (how & O_APPEND) != 0 && fstat(file, &what) == 0 ? what.st_size : lseek(file, 0, SEEK_CUR);
}

ssize_t write(int file, const void *bytes, size_t size) {
    ssize_t (*real_write)(int, const void *, size_t) = real("write");
    int which = file_of(file);
    if (which == PINS) {
        return make(file, bytes, size, real_write);
    }
    if (fails(which, WRITE)) {
        return -1;
    }
    struct entry *entry = which < FILES ? tell(which, WRITE, place_of(file), bytes, size) : NULL;
    ssize_t result = real_write(file, bytes, size);
    if (entry != NULL) {
        end(entry, result);
    }
    return result;
}

ssize_t pwrite64(int file, const void *bytes, size_t size, off64_t at) {
    ssize_t (*real_write)(int, const void *, size_t, off64_t) = real("pwrite64");
    int which = file_of(file);
    if (fails(which, WRITE)) {
        return -1;
    }
    struct entry *entry = which < FILES ? tell(which, WRITE, at, bytes, size) : NULL;
    ssize_t result = real_write(file, bytes, size, at);
    if (entry != NULL) {
        end(entry, result);
    }
    return result;
}

ssize_t pwrite(int file, const void *bytes, size_t size, off_t at) {
    return pwrite64(file, bytes, size, at);
}

ssize_t read(int file, void *to, size_t size) {
    ssize_t (*real_read)(int, void *, size_t) = real("read");
    return deed_count > 0 && fails(file_of(file), READ) ? -1 : real_read(file, to, size);
}

ssize_t pread64(int file, void *to, size_t size, off64_t at) {
    ssize_t (*real_read)(int, void *, size_t, off64_t) = real("pread64");
    return fails(file_of(file), READ) ? -1 : real_read(file, to, size, at);
}

ssize_t pread(int file, void *to, size_t size, off_t at) {
    return pread64(file, to, size, at);
}

static int synced(int file, const char *name) {
    int (*real_sync)(int) = real(name);
    int which = file_of(file);
    if (fails(which, SYNC)) {
        return errno == 0 ? 0 : -1;
    }
    struct entry *entry = which < PINS ? tell(which, SYNC, 0, "", 0) : NULL;
    int result = real_sync(file);
    if (entry != NULL) {
        end(entry, result);
    }
    return result;
}

int fdatasync(int file) {
    return synced(file, "fdatasync");
}

int fsync(int file) {
    return synced(file, "fsync");
}

int ftruncate64(int file, off64_t size) {
    int (*real_cut)(int, off64_t) = real("ftruncate64");
    int which = file_of(file);
    if (fails(which, CUT)) {
        return -1;
    }
    struct entry *entry = which < PINS ? tell(which, CUT, size, "", 0) : NULL;
    int result = real_cut(file, size);
    if (entry != NULL) {
        end(entry, result);
    }
    return result;
}

int ftruncate(int file, off_t size) {
    return ftruncate64(file, size);
}

int fallocate64(int file, int how, off64_t at, off64_t length) {
    int (*real_punch)(int, int, off64_t, off64_t) = real("fallocate64");
    int which = file_of(file);
    if (fails(which, PUNCH)) {
        return -1;
    }
    struct entry *entry = which < PINS ? tell(which, PUNCH, at, "", (size_t)length) : NULL;
    int result = real_punch(file, how, at, length);
    if (entry != NULL) {
        end(entry, result);
    }
    return result;
}

int fallocate(int file, int how, off_t at, off_t length) {
    return fallocate64(file, how, at, length);
}
