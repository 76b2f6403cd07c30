/* Judges the pacer of tools/player over streams by chance, with motors, lines in hand, holds, overrides and ends by
 * chance. The words are the first seed, how many, and of how much of the motors' acceleration, in percent, the judge is
 * told; a file behind them gets the last stream with its times. It prints what is wrong with streams, then how many are
 * right, and how many lines there were. */
#include <inttypes.h>
#include <math.h>
#include <stdio.h>
#include <stdlib.h>

#include "chance_paced.h"

/* Whole steps, so that the pacer's limits are the motors'. */
static double whole(double low, double high) {
    return floor(chance_of_size(&chance, low, high));
}

static struct motors some_motors(void) {
    static const double slacks[] = {1, 2, 2, 2, 4, 8, 64};
    static const double percents[] = {100, 100, 100, 137, 200};
    struct motors motors = {.slack = slacks[chance_below(&chance, 7)],
                            .most_percent = percents[chance_below(&chance, 5)]};
    double accel = whole(100, 1e7);
    bool has_rates = chance_below(&chance, 3) == 0;
    bool has_starts = chance_below(&chance, 4) == 0;
    for (int axis = 0; axis < 3; axis++) {
        motors.accel[axis] = fmax(3, floor(accel * chance_of_size(&chance, 0.3, 1)));
        motors.rate[axis] = has_rates ? whole(100, 100000) : 0;
        motors.start[axis] = has_starts ? whole(1, 3000) : 0;
    }
    return motors;
}

/* Writes the stream: limits, then what was asked for before each line, when it is due, and itself. */
static void show(const char *path, const struct motors *motors) {
    FILE *file = fopen(path, "w");
    if (file == NULL) {
        perror(path);
        exit(2);
    }
    fprintf(file, "accel %.0f %.0f %.0f rate %.0f %.0f %.0f start %.0f %.0f %.0f slack %.0f percent %.0f\n",
            motors->accel[0], motors->accel[1], motors->accel[2], motors->rate[0], motors->rate[1], motors->rate[2],
            motors->start[0], motors->start[1], motors->start[2], motors->slack, motors->most_percent);
    for (size_t at = 0; at < count; at++) {
        const struct timed_line *line = &lines[at];
        static const char *const asked[] = {"", "hold ", "end "};
        fprintf(file, "%s%" PRIu64 " %c %d %d %d %" PRIu64 "\n", asked[line->asked], line->due_ns, line->kind,
                line->step[0], line->step[1], line->step[2], line->us);
    }
    fclose(file);
}

int main(int words, char **given) {
    if (words != 4 && words != 5) {
        return 2;
    }
    uint64_t first = strtoull(given[1], NULL, 10);
    uint64_t seeds = strtoull(given[2], NULL, 10);
    double percent = strtod(given[3], NULL);
    uint64_t right_streams = 0, all_lines = 0;
    for (uint64_t seed = first; seed < first + seeds; seed++) {
        chance = chance_of(seed);
        struct motors motors = some_motors();
        make_stream(&motors, 1);
        pace_all(&motors);
        for (int axis = 0; axis < 3; axis++) {
            motors.accel[axis] *= percent / 100;
        }
        struct verdict verdict = judge(lines, &motors);
        all_lines += count;
        right_streams += verdict.what == NULL;
        if (verdict.what != NULL) {
            printf("seed %" PRIu64 ", line %zu: %s: %.6g, at most %.6g\n", seed, verdict.line + 1, verdict.what,
                   verdict.is, verdict.most);
        }
        if (words == 5) {
            show(given[4], &motors);
        }
    }
    printf("%" PRIu64 " %" PRIu64 "\n", right_streams, all_lines);
    return 0;
}
