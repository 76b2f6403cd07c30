/* Turns a rotor by streams by chance, at the times of the pacer of tools/player and at OUT's own. The words are the
 * first seed and how many, and the acceleration and the rate of all axes in steps. It prints how many streams lose
 * steps with ramps, and how many without, how many lines there were, and the greatest lag with ramps, in thousandths of
 * a full step. */
#include <inttypes.h>
#include <math.h>
#include <stdio.h>
#include <stdlib.h>

#include "chance_paced.h"
#include "rotor.h"

/* Whether an axis loses a step. `most` becomes the greatest lag, if that is greater. */
static bool loses(double *most) {
    bool is_lost = false;
    for (int axis = 0; axis < 3; axis++) {
        struct rotor rotor = follow(lines, axis);
        *most = fmax(*most, rotor.most_lag);
        is_lost = is_lost || rotor.lost > 0;
    }
    return is_lost;
}

/* Gives the lines the times of OUT. */
static void time_as_out(void) {
    uint64_t due_ns = 0;
    for (size_t at = 0; at <= count; at++) {
        lines[at].due_ns = due_ns;
        due_ns += lines[at].kind == 'S' ? 0 : lines[at].us * 1000;
    }
}

int main(int words, char **given) {
    if (words != 5) {
        return 2;
    }
    uint64_t first = strtoull(given[1], NULL, 10);
    uint64_t seeds = strtoull(given[2], NULL, 10);
    double accel = strtod(given[3], NULL);
    double rate = strtod(given[4], NULL);
    const struct motors motors = {{accel, accel, accel}, {rate, rate, rate}, {0, 0, 0}, 2, 100};
    uint64_t lost = 0, raw = 0, all_lines = 0;
    double most = 0, of_raw = 0;
    for (uint64_t seed = first; seed < first + seeds; seed++) {
        chance = chance_of(seed);
        make_stream(&motors, 1e6 / rate);
        pace_all(&motors);
        bool is_lost = loses(&most);
        if (is_lost) {
            printf("seed %" PRIu64 "\n", seed);
        }
        time_as_out();
        lost += is_lost;
        raw += loses(&of_raw);
        all_lines += count;
    }
    printf("%" PRIu64 " %" PRIu64 " %" PRIu64 " %.0f\n", lost, raw, all_lines, most * 1000);
    return 0;
}
