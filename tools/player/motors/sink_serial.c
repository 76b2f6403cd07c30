#define _GNU_SOURCE
#include "sink_serial.h"

#include <errno.h>
#include <fcntl.h>
#include <string.h>
#include <sys/file.h>
#include <termios.h>
#include <unistd.h>

static const struct {
    int64_t baud;
    speed_t speed;
} rates[] = {{115200, B115200},   {230400, B230400},   {460800, B460800},   {500000, B500000},   {576000, B576000},
             {921600, B921600},   {1000000, B1000000}, {1152000, B1152000}, {1500000, B1500000}, {2000000, B2000000},
             {2500000, B2500000}, {3000000, B3000000}, {3500000, B3500000}, {4000000, B4000000}};

enum { RATES = sizeof rates / sizeof rates[0] };

/* The number of a rate; RATES for none. */
static size_t rate_of(int64_t baud) {
    size_t at = 0;
    while (at < RATES && rates[at].baud != baud) {
        at++;
    }
    return at;
}

bool serial_has_rate(int64_t baud) {
    return rate_of(baud) < RATES;
}

/* Makes a terminal let all bytes through. */
static bool set_raw(int line, int baud) {
    struct termios how;
    if (tcgetattr(line, &how) != 0) {
        return false;
    }
    cfmakeraw(&how);
    how.c_cflag |= CLOCAL | CREAD;
    how.c_cflag &= ~(tcflag_t)(CSTOPB | CRTSCTS);
    how.c_cc[VMIN] = 0;
    how.c_cc[VTIME] = 0;
    cfsetspeed(&how, rates[rate_of(baud)].speed);
    return tcsetattr(line, TCSANOW, &how) == 0 && tcflush(line, TCIFLUSH) == 0;
}

int serial_open(const char *path, int baud, struct cause *why) {
    int line = open(path, O_RDWR | O_NOCTTY | O_NONBLOCK | O_CLOEXEC);
    if (line < 0) {
        because(why, "%s: %s", path, strerror(errno));
        return -1;
    }
    if (!isatty(line)) {
        because(why, "%s: it isn't a serial line", path);
    } else if (flock(line, LOCK_EX | LOCK_NB) != 0) {
        because(why, "%s: another process holds it", path);
    } else if (!set_raw(line, baud)) {
        because(why, "%s: %s", path, strerror(errno));
    } else {
        return line;
    }
    close(line);
    return -1;
}

int serial_read(int line, uint8_t *bytes, size_t room) {
    ssize_t got = read(line, bytes, room);
    bool is_there = got >= 0 || errno == EAGAIN || errno == EINTR;
    return is_there ? (got > 0 ? (int)got : 0) : -1;
}

int serial_write(int line, const uint8_t *bytes, size_t size) {
    ssize_t done = write(line, bytes, size);
    bool is_there = done >= 0 || errno == EAGAIN || errno == EINTR;
    return is_there ? (done > 0 ? (int)done : 0) : -1;
}
