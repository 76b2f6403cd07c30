#define _XOPEN_SOURCE 600
#include "bench_line.h"

#include <fcntl.h>
#include <poll.h>
#include <stdlib.h>
#include <string.h>
#include <termios.h>
#include <unistd.h>

#include "bench.h"

enum { ROOM = 65536, NEW_MS = 20 };

/* A frame on its way, as far as it has come. */
struct way {
    uint8_t bytes[ROOM];
    size_t size;
};

static int terminal;
static struct way sending;
static unsigned long received;
static unsigned long sent;
static uint64_t gave_at;
static struct { uint8_t bytes[WIRE_LINE]; size_t size; uint64_t at; } newest; /* frame that came through, and its tick */
static uint32_t random_state;
static uint32_t fault_rate;
static uint64_t cut_until;

const char *line_open(void) {
    struct termios raw;
    terminal = posix_openpt(O_RDWR | O_NOCTTY | O_NONBLOCK);
    if (terminal < 0 || grantpt(terminal) != 0 || unlockpt(terminal) != 0) {
        bench_give_up("no pseudo terminal");
    }
    const char *path = ptsname(terminal);
    int other = path != NULL ? open(path, O_RDWR | O_NOCTTY) : -1;
    if (other < 0 || tcgetattr(other, &raw) != 0) {
        bench_give_up("no pseudo terminal");
    }
    raw.c_iflag &= ~(tcflag_t)(BRKINT | ICRNL | INPCK | ISTRIP | IXON | INLCR | IGNCR | PARMRK);
    raw.c_oflag &= ~(tcflag_t)OPOST;
    raw.c_lflag &= ~(tcflag_t)(ECHO | ECHONL | ICANON | IEXTEN | ISIG);
    raw.c_cc[VMIN] = 1;
    raw.c_cc[VTIME] = 0;
    if (tcsetattr(other, TCSANOW, &raw) != 0) {
        bench_give_up("no raw terminal");
    }
    return path;
}

void line_set_faults(uint32_t seed, uint32_t rate) {
    random_state = seed;
    fault_rate = rate;
}

void line_cut(uint64_t until) {
    cut_until = until;
}

bool line_is_cut(void) {
    return device_now() < cut_until;
}

/* Whether a fault befalls a frame. */
static bool is_faulty(void) {
    random_state = random_state * 1664525 + 1013904223;
    return (random_state >> 8) % 1000 < fault_rate;
}

/* What of a frame comes through: all of it, a part, nothing, or it with a byte changed; and how often. */
static size_t pass(uint8_t *bytes, size_t size, int *times) {
    *times = is_faulty() ? 2 : 1;
    if (line_is_cut() || is_faulty()) {
        return 0;
    }
    if (is_faulty()) {
        bytes[(random_state >> 16) % size] ^= (uint8_t)(1 << (random_state >> 8) % 8);
    }
    return is_faulty() ? (random_state >> 16) % size : size;
}

/* Takes a byte of a frame; what is to come through of the frame that it ends, and how often. */
static size_t follow(struct way *way, uint8_t byte, int *times) {
    way->bytes[way->size] = byte;
    way->size++;
    if (byte != 0 && way->size < ROOM) {
        return 0;
    }
    size_t size = way->size;
    way->size = 0;
    return pass(way->bytes, size, times);
}

static void write_all(const uint8_t *bytes, size_t size) {
    ssize_t done = size > 0 ? write(terminal, bytes, size) : 0;
    sent += done > 0 ? (unsigned long)done : 0;
}

/* Keeps a frame, if it is a whole one. */
static void keep(const uint8_t *bytes, size_t size) {
    if (size > 0 && size <= sizeof newest.bytes && bytes[size - 1] == 0) {
        memcpy(newest.bytes, bytes, size);
        newest.size = size;
        newest.at = device_now();
    }
}

void bench_send(const uint8_t *bytes, size_t size) {
    for (size_t at = 0; at < size; at++) {
        int times = 1;
        size_t passed = follow(&sending, bytes[at], &times);
        write_all(sending.bytes, passed);
        write_all(sending.bytes, times == 2 ? passed : 0);
        keep(sending.bytes, passed);
    }
}

void line_drop_part(void) {
    sending.size = 0;
}

void line_say_again(void) {
    bool is_new = device_now() - newest.at < NEW_MS * WIRE_TICKS_A_MS;
    write_all(newest.bytes, is_new && !line_is_cut() ? newest.size : 0);
}

/* Bytes that have come, 0 where there are none. */
static size_t read_some(uint8_t *bytes, size_t room) {
    ssize_t got = read(terminal, bytes, room);
    received += got > 0 ? (unsigned long)got : 0;
    return got > 0 ? (size_t)got : 0;
}

void line_receive(unsigned long bytes) {
    uint8_t some[4096];
    while (received < bytes) {
        struct pollfd on = {terminal, POLLIN, 0};
        poll(&on, 1, -1);
        size_t size = read_some(some, sizeof some);
        if (size == 0) {
            bench_give_up("the terminal is gone");
        }
        device_give(some, size);
    }
}

void line_take_frames(void) {
    static struct way way;
    uint8_t bytes[4096];
    size_t size = device_has_room() ? read_some(bytes, sizeof bytes) : 0;
    for (size_t at = 0; at < size; at++) {
        int times = 1;
        size_t passed = follow(&way, bytes[at], &times);
        gave_at = passed > 0 ? device_now() : gave_at;
        device_give(way.bytes, passed);
        device_give(way.bytes, times == 2 ? passed : 0);
    }
}

void line_wait(int ms) {
    struct pollfd on[2] = {{STDIN_FILENO, POLLIN, 0}, {terminal, POLLIN, 0}};
    poll(on, 2, ms);
}

unsigned long line_sent(void) {
    return sent;
}

uint64_t line_gave_at(void) {
    return gave_at;
}
