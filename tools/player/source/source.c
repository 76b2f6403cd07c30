#define _GNU_SOURCE
#include "source.h"

#include <errno.h>
#include <fcntl.h>
#include <stdatomic.h>
#include <string.h>
#include <sys/ioctl.h>
#include <sys/stat.h>
#include <unistd.h>

enum { TAIL_BYTES = 4096, LEAST_PIPE = 4096 };

static atomic_int error; /* why OUT can't be read any more; 0 */

int source_error(void) {
    return atomic_load(&error);
}

/* Notes why a read failed, if no other did before. */
static void note_error(void) {
    int none = 0;
    if (errno != EAGAIN && errno != EWOULDBLOCK) {
        atomic_compare_exchange_strong(&error, &none, errno);
    }
}

/* Asks for a pipe of so many bytes; says so where one in which more waits stays as it is. */
static void resize(const struct source *source, int bytes) {
    fcntl(source->file, F_SETPIPE_SZ, bytes);
    int size = fcntl(source->file, F_GETPIPE_SZ);
    if (size < 2 * (bytes > LEAST_PIPE ? bytes : LEAST_PIPE)) {
        return;
    }
    if (size < 1000000) {
        say("%s: the pipe stays at %d,%03d bytes", source->path, size / 1000, size % 1000);
    } else {
        say("%s: the pipe stays at %d,%03d,%03d bytes", source->path, size / 1000000, size / 1000 % 1000, size % 1000);
    }
}

static ssize_t read_at(int file, char *to, size_t size, uint64_t from) {
    size_t done = 0;
    while (done < size) {
        ssize_t got = pread(file, to + done, size - done, (off_t)(from + done));
        if (got < 0 && errno != EINTR) {
            note_error();
            break;
        }
        if (got == 0) {
            break;
        }
        done += got > 0 ? (size_t)got : 0;
    }
    return (ssize_t)done;
}

/* Whether a file is a device, by one of its two headers: docs/DEVICE.md. */
static bool is_device(int file) {
    static const char mark[] = "RS274NGC";
    enum { MARK = sizeof mark - 1, SECTOR = 512 };
    char begin[SECTOR + MARK] = "";
    read_at(file, begin, sizeof begin, 0);
    return memcmp(begin, mark, MARK) == 0 || memcmp(begin + SECTOR, mark, MARK) == 0;
}

bool source_open(struct source *source, const char *path, int pipe_bytes, bool follows, struct cause *why) {
    struct stat what;
    source->limit = UINT64_MAX;
    source->path = path;
    source->file = open(path, O_RDONLY | O_NONBLOCK | O_CLOEXEC);
    if (source->file < 0 || fstat(source->file, &what) != 0) {
        return because(why, "%s: %s", path, strerror(errno));
    }
    if (S_ISDIR(what.st_mode)) {
        return because(why, "%s: %s", path, strerror(EISDIR));
    }
    source->is_pipe = S_ISFIFO(what.st_mode);
    if (!source->is_pipe && !S_ISREG(what.st_mode)) {
        return because(why, "%s: neither a file nor a named pipe", path);
    }
    if (!source->is_pipe && is_device(source->file)) {
        return because(why, "%s: it is a device, and no OUT", path);
    }
    if (source_error() != 0) {
        return because(why, "%s: %s", path, strerror(source_error()));
    }
    if (source->is_pipe) {
        resize(source, pipe_bytes);
    }
    source->follows = follows && !source->is_pipe;
    return true;
}

bool source_ends(const struct source *source) {
    return !source->is_pipe && !source->follows && source_error() == 0;
}

void source_go_to(struct source *source, uint64_t lines, uint64_t bytes) {
    source->first = source->end = 0;
    source->received = lines;
    source->taken = bytes;
    lseek(source->file, (off_t)bytes, SEEK_SET);
}

uint64_t source_size(const struct source *source) {
    struct stat what;
    return fstat(source->file, &what) == 0 ? (uint64_t)what.st_size : 0;
}

size_t source_read_at(const struct source *source, char *to, size_t size, uint64_t from) {
    return (size_t)read_at(source->file, to, size, from);
}

/* So many bytes, or as many as there are before the limit. */
static uint64_t allowed(const struct source *source, uint64_t most) {
    if (source->limit == UINT64_MAX) {
        return most;
    }
    uint64_t at = (uint64_t)lseek(source->file, 0, SEEK_CUR);
    uint64_t left = source->limit > at ? source->limit - at : 0;
    return most < left ? most : left;
}

bool source_skip(struct source *source, const struct record *begun) {
    source->received = begun->lines;
    source->taken = begun->bytes;
    return source->is_pipe || lseek(source->file, (off_t)begun->bytes, SEEK_SET) >= 0;
}

static uint32_t crc32_of(const char *bytes, size_t size) {
    uint32_t sum = UINT32_MAX;
    for (size_t at = 0; at < size; at++) {
        sum ^= (unsigned char)bytes[at];
        for (int bit = 0; bit < 8; bit++) {
            sum = sum >> 1 ^ (sum & 1 ? UINT32_C(0xedb88320) : 0);
        }
    }
    return ~sum;
}

struct file_mark source_mark(const struct source *source, uint64_t bytes) {
    struct file_mark mark = {0};
    struct statx what;
    char tail[TAIL_BYTES];
    size_t size = bytes < TAIL_BYTES ? (size_t)bytes : TAIL_BYTES;
    if (source->is_pipe || statx(source->file, "", AT_EMPTY_PATH, STATX_INO | STATX_BTIME, &what) != 0) {
        return mark;
    }
    mark.is_known = true;
    mark.inode = what.stx_ino & INT64_MAX;
    if (what.stx_mask & STATX_BTIME) {
        mark.born_ns = (uint64_t)what.stx_btime.tv_sec * UINT64_C(1000000000) + what.stx_btime.tv_nsec;
    }
    mark.digest = crc32_of(tail, (size_t)read_at(source->file, tail, size, bytes - size));
    mark.is_known = source_error() == 0; /* else the digest may be of fewer bytes */
    return mark;
}

bool source_holds(const struct source *source, uint64_t bytes) {
    char last = '\0';
    return bytes == 0 || (read_at(source->file, &last, 1, bytes - 1) == 1 && last == '\n');
}

bool source_next(struct source *source, char line[LONGEST_LINE + 2], size_t *size) {
    const char *begin = source->hand + source->first;
    size_t there = source->end - source->first;
    const char *stop = memchr(begin, '\n', there);
    if (stop == NULL && there <= LONGEST_LINE) {
        return false;
    }
    *size = stop != NULL ? (size_t)(stop - begin) + 1 : there;
    source->first += *size;
    source->taken += *size;
    if (*size > LONGEST_LINE + 1) { /* no line is as long: it will be refused */
        *size = LONGEST_LINE + 1;
    }
    memcpy(line, begin, *size);
    line[*size] = '\0';
    return true;
}

bool source_read(struct source *source, size_t most) {
    if (source->end + most > sizeof source->hand) {
        source->end -= source->first;
        memmove(source->hand, source->hand + source->first, source->end);
        source->first = 0;
    }
    size_t room = (size_t)allowed(source, HAND_ROOM - (source->end - source->first));
    ssize_t got = -1;
    do {
        got = read(source->file, source->hand + source->end, most < room ? most : room);
    } while (got < 0 && errno == EINTR);
    if (got < 0) {
        note_error();
    }
    for (ssize_t at = 0; at < got; at++) {
        source->received += source->hand[source->end] == '\n';
        source->end++;
    }
    return got > 0;
}

/* How many bytes stand in OUT and aren't in hand. */
static uint64_t waiting(const struct source *source) {
    struct stat what;
    int there = 0;
    if (source->is_pipe) {
        return ioctl(source->file, FIONREAD, &there) == 0 ? (uint64_t)there : 0;
    }
    off_t at = lseek(source->file, 0, SEEK_CUR);
    return fstat(source->file, &what) == 0 && what.st_size > at ? allowed(source, (uint64_t)(what.st_size - at)) : 0;
}

uint64_t source_end(const struct source *source) {
    size_t in_hand = source->end - source->first;
    uint64_t rest = waiting(source);
    const char *stop = memrchr(source->hand + source->first, '\n', in_hand);
    size_t whole = stop != NULL ? (size_t)(stop - (source->hand + source->first)) + 1 : 0;
    return source->taken + (rest > 0 ? in_hand + rest : whole);
}

bool source_take_all(struct source *source) {
    uint64_t rest = waiting(source);
    bool took = false;
    while (rest > 0 && source_read(source, rest < 4096 ? (size_t)rest : 4096)) {
        rest -= rest < 4096 ? rest : 4096;
        took = true;
    }
    return took;
}

const char *source_part(const struct source *source, size_t *size) {
    *size = source->end - source->first;
    return source->hand + source->first;
}
