// The same line and circle by the same rules, in C: error accumulators, and f by differences.
#include <stdint.h>
#include <stdio.h>
#include <time.h>

static double now_ms(void) {
    struct timespec t;
    clock_gettime(CLOCK_MONOTONIC, &t);
    return t.tv_sec * 1e3 + t.tv_nsec / 1e6;
}

static uint64_t line(int64_t dx, int64_t dy, int64_t dz) {
    uint64_t n = dx, x = n, y = n, z = n, all = 0;
    for (uint64_t k = 0; k < n; k++) {
        x += 2 * dx;
        if (x >= 2 * n) { x -= 2 * n; all += 1; }
        y += 2 * dy;
        if (y >= 2 * n) { y -= 2 * n; all += 3; }
        z += 2 * dz;
        if (z >= 2 * n) { z -= 2 * n; all += 7; }
    }
    return all;
}

// A full circle from (r, 0), to the first point level with the start after four changes of quadrant.
static uint64_t circle(int64_t r, int64_t s) {
    int64_t a = r, b = 0, f = 0, ss = s * s;
    int quadrant = 0, changes = 0;
    uint64_t all = 0;
    while (changes < 4 || b < 0) {
        int before = quadrant;
        switch (quadrant) {
        case 0:
            if (f > 0) { f += ss - 2 * a * s; a -= s; } else { f += ss + 2 * b * s; b += s; all += 3; }
            if (a <= 0) quadrant = 1;
            break;
        case 1:
            if (f > 0) { f += ss - 2 * b * s; b -= s; } else { f += ss - 2 * a * s; a -= s; }
            if (b <= 0) quadrant = 2;
            break;
        case 2:
            if (f > 0) { f += ss + 2 * a * s; a += s; all += 1; } else { f += ss - 2 * b * s; b -= s; }
            if (a >= 0) quadrant = 3;
            break;
        default:
            if (f > 0) { f += ss + 2 * b * s; b += s; all += 3; } else { f += ss + 2 * a * s; a += s; all += 1; }
            if (b >= 0) quadrant = 0;
        }
        if (quadrant != before) changes++;
        if (changes == 4 && b >= 0) break;
    }
    return all;
}

int main(void) {
    double start = now_ms();
    uint64_t all = line(100000000, 61803398, 31415926);
    printf("line %llu %.0f\n", (unsigned long long)all, now_ms() - start);
    start = now_ms();
    volatile int64_t r = 10000000000;
    all = circle(r, 1000);
    printf("circle %llu %.0f\n", (unsigned long long)all, now_ms() - start);
    return 0;
}
