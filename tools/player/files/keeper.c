#define _GNU_SOURCE
#include "keeper.h"

#include <errno.h>
#include <fcntl.h>
#include <libgen.h>
#include <limits.h>
#include <stdio.h>
#include <string.h>
#include <sys/file.h>
#include <sys/stat.h>
#include <unistd.h>

static bool fail(const struct keeper *keeper, int error, struct cause *why) {
    return because(why, "%s: %s", keeper->path, strerror(error));
}

/* Syncs a file or a folder. */
static int sync_all(int file) {
    int result = 0;
    do {
        result = fsync(file);
    } while (result != 0 && errno == EINTR);
    return result;
}

static bool lock(const struct keeper *keeper, int file, struct cause *why) {
    if (flock(file, LOCK_EX | LOCK_NB) == 0) {
        return true;
    }
    return errno == EWOULDBLOCK ? because(why, "%s: another player keeps it", keeper->path) : fail(keeper, errno, why);
}

bool keeper_hold(struct keeper *keeper, const char *path, struct cause *why) {
    keeper->path = path;
    keeper->file = open(path, O_RDWR | O_CLOEXEC);
    if (keeper->file < 0) {
        return errno == ENOENT || fail(keeper, errno, why);
    }
    return lock(keeper, keeper->file, why);
}

bool keeper_read(const struct keeper *keeper, struct record *record, struct cause *why) {
    char text[RECORD_SIZE + 1];
    ssize_t size = 0;
    do {
        size = pread(keeper->file, text, sizeof text, 0);
    } while (size < 0 && errno == EINTR);
    return size < 0 ? fail(keeper, errno, why) : record_read(text, (size_t)size, keeper->path, record, why);
}

int keeper_write(struct keeper *keeper, const struct record *record) {
    char text[RECORD_SIZE];
    record_print(record, text);
    if (memcmp(text, keeper->kept, RECORD_SIZE) == 0) {
        return 0;
    }
    errno = 0;
    ssize_t written = 0;
    do {
        written = pwrite(keeper->file, text, RECORD_SIZE, 0);
    } while (written < 0 && errno == EINTR);
    int synced = 0;
    do {
        synced = written == RECORD_SIZE ? fdatasync(keeper->file) : -1;
    } while (synced != 0 && errno == EINTR);
    if (synced != 0) {
        return errno != 0 ? errno : EIO;
    }
    memcpy(keeper->kept, text, RECORD_SIZE);
    return 0;
}

/* Makes the name of a new file lasting. */
static int sync_folder(const char *path) {
    char copy[PATH_MAX];
    snprintf(copy, sizeof copy, "%s", path);
    int folder = open(dirname(copy), O_RDONLY | O_DIRECTORY | O_CLOEXEC);
    int error = folder < 0 || sync_all(folder) != 0 ? errno : 0;
    if (folder >= 0) {
        close(folder);
    }
    return error;
}

/* Writes the first record beside, and gives it its name once it is synced. */
static bool make(struct keeper *keeper, const struct record *record, struct cause *why) {
    char folder[PATH_MAX];
    char name[PATH_MAX];
    char beside[2 * PATH_MAX + 16];
    struct stat what;
    snprintf(folder, sizeof folder, "%s", keeper->path);
    snprintf(name, sizeof name, "%s", keeper->path);
    snprintf(beside, sizeof beside, "%s/.%s.new", dirname(folder), basename(name));
    keeper->file = open(beside, O_RDWR | O_CREAT | O_NOFOLLOW | O_CLOEXEC, 0600);
    if (keeper->file < 0) {
        return fail(keeper, errno, why);
    }
    if (!lock(keeper, keeper->file, why)) {
        return false;
    }
    if (stat(keeper->path, &what) == 0) {
        return because(why, "%s: another player keeps it", keeper->path);
    }
    int error = ftruncate(keeper->file, 0) != 0 ? errno : keeper_write(keeper, record);
    if (error == 0 && (sync_all(keeper->file) != 0 || rename(beside, keeper->path) != 0)) {
        error = errno;
    }
    if (error != 0) {
        unlink(beside);
        return fail(keeper, error, why);
    }
    return true;
}

bool keeper_begin(struct keeper *keeper, const struct record *record, struct cause *why) {
    if (keeper->file < 0 && !make(keeper, record, why)) {
        return false;
    }
    int error = keeper_write(keeper, record);
    if (error == 0) {
        error = sync_folder(keeper->path);
    }
    return error == 0 || fail(keeper, error, why);
}
