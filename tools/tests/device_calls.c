/* A library that is loaded before the C library's own (LD_PRELOAD), for tests of what `ngc` does with a device's file.
 *
 * Each write and each sync of a file in this folder is told in the file `calls`: `write NAME PLACE SIZE`, or
 * `sync NAME`, where the folder itself is named `.`. Before the read of the device `mill.dev` whose number, from 1 on,
 * DEVICE_CHANGES gives, the bytes of `after.dev` take the place of the device's. With `all` for a number, something in
 * the device changes before each read. */
#define _GNU_SOURCE
#include <dlfcn.h>
#include <fcntl.h>
#include <stdbool.h>
#include <stdio.h>
#include <stdlib.h>
#include <string.h>
#include <sys/types.h>
#include <unistd.h>

enum { SECTOR = 512, NUMBER_AT = 1000 * SECTOR };

/* The name of an open file in this folder, `.` of the folder itself, or NULL. */
static const char *name_of(int file) {
    static char path[4096], folder[4096];
    char link[64];
    snprintf(link, sizeof link, "/proc/self/fd/%d", file);
    ssize_t length = readlink(link, path, sizeof path - 1);
    if (length < 0 || !getcwd(folder, sizeof folder))
        return NULL;
    path[length] = 0;
    size_t before = strlen(folder);
    if (strncmp(path, folder, before))
        return NULL;
    return path[before] ? path + before + 1 : ".";
}

static bool is_device(int file) {
    const char *name = name_of(file);
    return name && !strcmp(name, "mill.dev");
}

static void put(const void *bytes, size_t size, off_t place) {
    int device = open("mill.dev", O_WRONLY);
    if (device < 0 || pwrite(device, bytes, size, place) != (ssize_t)size)
        abort();
    close(device);
}

static void put_all(void) {
    static unsigned char bytes[1 << 20];
    int after = open("after.dev", O_RDONLY);
    ssize_t size = pread(after, bytes, sizeof bytes, 0);
    if (size <= 0)
        abort();
    close(after);
    put(bytes, (size_t)size, 0);
}

static void tell(const char *call, int file, const char *rest) {
    const char *name = name_of(file);
    if (!name)
        return;
    int calls = open("calls", O_WRONLY | O_CREAT | O_APPEND, 0666);
    dprintf(calls, "%s %s%s\n", call, name, rest);
    close(calls);
}

ssize_t read(int file, void *into, size_t size) {
    static unsigned long count;
    ssize_t (*next)(int, void *, size_t);
    *(void **)&next = dlsym(RTLD_NEXT, "read");
    const char *changes = getenv("DEVICE_CHANGES");
    if (changes && size == SECTOR && is_device(file)) {
        count++;
        if (!strcmp(changes, "all"))
            put(&count, sizeof count, NUMBER_AT);
        else if (count == strtoul(changes, NULL, 10))
            put_all();
    }
    return next(file, into, size);
}

ssize_t write(int file, const void *bytes, size_t size) {
    char rest[64];
    ssize_t (*next)(int, const void *, size_t);
    *(void **)&next = dlsym(RTLD_NEXT, "write");
    snprintf(rest, sizeof rest, " %lld %zu", (long long)lseek(file, 0, SEEK_CUR), size);
    tell("write", file, rest);
    return next(file, bytes, size);
}

int fsync(int file) {
    int (*next)(int);
    *(void **)&next = dlsym(RTLD_NEXT, "fsync");
    tell("sync", file, "");
    return next(file);
}

int fdatasync(int file) {
    int (*next)(int);
    *(void **)&next = dlsym(RTLD_NEXT, "fdatasync");
    tell("sync", file, "");
    return next(file);
}
