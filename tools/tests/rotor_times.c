/* Reads lines of OUT behind the nanoseconds at which they are due, as --times and `ngc pace` write them, and turns a
 * rotor by the steps of each axis. It prints how many steps X, Y and Z lose, and the greatest lag in thousandths of a
 * full step. */
#include <inttypes.h>
#include <math.h>
#include <stdio.h>
#include <stdlib.h>

#include "rotor.h"

static struct timed_line *lines;

static void read_all(void) {
    char text[256];
    size_t count = 0;
    size_t room = 0;
    while (lines == NULL || fgets(text, sizeof text, stdin) != NULL) {
        struct timed_line line = {0};
        int *step = line.step;
        if (count + 2 > room) {
            room = room * 2 + 4096;
            lines = realloc(lines, room * sizeof *lines);
        }
        if (lines == NULL) {
            exit(2);
        }
        if (sscanf(text, "%" SCNu64 " P %d %d %d", &line.due_ns, &step[0], &step[1], &step[2]) == 4) {
            line.kind = 'P';
            lines[count++] = line;
        }
        lines[count] = (struct timed_line){0};
    }
}

int main(void) {
    double most = 0;
    read_all();
    for (int axis = 0; axis < 3; axis++) {
        struct rotor rotor = follow(lines, axis);
        most = fmax(most, rotor.most_lag);
        printf("%" PRIu64 " ", rotor.lost);
    }
    printf("%.0f\n", most * 1000);
    return 0;
}
