/* Whether motors can follow pulses: reads lines of OUT, each behind the nanosecond at which it is due, as --times and
 * `ngc pace` write them. It knows the steps of each axis and their moments alone, and nothing of a pacer.
 *
 * If there is a motion x(t), with an acceleration of at most a, that is never more than e steps from where the pulses
 * are, q(t), then |q(t + 2L) - 2 q(t + L) + q(t)| <= a L^2 + 4 e for all t and L. Printed is the least e for which that
 * is so of all axes, in thousandths of a step, and the greatest lateness of each line against the one before it: none
 * may come sooner than its own microseconds after it. The words are a of X, Y and Z, in steps a second, each second. */
#include <inttypes.h>
#include <math.h>
#include <stdio.h>
#include <stdlib.h>
#include <string.h>

enum { MOST_STEPS = 1 << 21 };

struct axis {
    size_t count;
    double moments[MOST_STEPS];
    double places[MOST_STEPS + 1]; /* before each of the steps, and after the last */
};

static struct axis axes[3];
static int64_t early; /* lines that come sooner than the one before them allows */

static void add(struct axis *axis, int64_t ns, int step) {
    if (step == 0) {
        return;
    }
    if (axis->count == MOST_STEPS) {
        fputs("too many steps\n", stderr);
        exit(2);
    }
    axis->moments[axis->count] = (double)ns / 1e9;
    axis->places[axis->count + 1] = axis->places[axis->count] + step;
    axis->count++;
}

static void read_all(void) {
    char text[256];
    int64_t due = 0;
    while (fgets(text, sizeof text, stdin) != NULL) {
        int64_t ns = 0;
        int64_t us = 0;
        int step[3] = {0, 0, 0};
        char kind = '\0';
        int found = sscanf(text, "%" SCNd64 " %c %d %d %d %" SCNd64, &ns, &kind, &step[0], &step[1], &step[2], &us);
        early += ns < due;
        if (kind == 'P' && found == 6) {
            for (int number = 0; number < 3; number++) {
                add(&axes[number], ns, step[number]);
            }
        }
        if (kind == 'D') {
            sscanf(text, "%*d D %" SCNd64, &us);
        }
        due = ns + (kind == 'S' ? 0 : us * 1000);
    }
}

/* Where an axis is at a moment; `at` is a step before it, and goes on to the last one before it. */
static double place(const struct axis *axis, size_t *at, double moment) {
    while (*at < axis->count && axis->moments[*at] <= moment) {
        (*at)++;
    }
    return axis->places[*at];
}

/* What windows of one size need that begin, turn or end about a step. */
static double needed(const struct axis *axis, double accel, double size, int part, double beside) {
    size_t at[3] = {0, 0, 0};
    double worst = 0;
    for (size_t step = 0; step < axis->count; step++) {
        double begin = axis->moments[step] - part * size + beside;
        double first = place(axis, &at[0], begin);
        double middle = place(axis, &at[1], begin + size);
        double last = place(axis, &at[2], begin + 2 * size);
        worst = fmax(worst, (fabs(last - 2 * middle + first) - accel * size * size) / 4);
    }
    return worst;
}

int main(int count, char **given) {
    double worst = 0;
    if (count != 4) {
        return 2;
    }
    read_all();
    for (int number = 0; number < 3; number++) {
        double accel = strtod(given[number + 1], NULL);
        for (double size = 0.00025; size < 0.6; size *= sqrt(2)) {
            for (int part = 0; part < 3; part++) {
                worst = fmax(worst, needed(&axes[number], accel, size, part, 1e-10));
                worst = fmax(worst, needed(&axes[number], accel, size, part, -1e-10));
            }
        }
    }
    printf("%.0f %" PRId64 "\n", worst * 1000, early);
    return 0;
}
