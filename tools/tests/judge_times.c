/* Judges what a file of --times and `ngc pace` have: each line of OUT behind the nanosecond at which it is due. The
 * words are a file of OUT, and the limits of motors in steps: accel, rate and start by axes, slack, most percent. The
 * last line of OUT is one that stands. It prints what is wrong, and ends with status 1 then. */
#include <inttypes.h>
#include <stdio.h>
#include <stdlib.h>
#include <string.h>

#include "judge.h"

enum { LONGEST = 256 };

static struct timed_line *lines;
static size_t count;

static void end(const char *what) {
    printf("line %zu: %s\n", count + 1, what);
    exit(1);
}

/* A line that is due at a time. */
static struct timed_line line_of(const char *text, uint64_t due_ns) {
    struct timed_line line = {.kind = text[0], .due_ns = due_ns};
    int *step = line.step;
    int found = sscanf(text, "P %d %d %d %" SCNu64, &step[0], &step[1], &step[2], &line.us);
    found += sscanf(text, "D %" SCNu64, &line.us);
    if (found != (line.kind == 'P' ? 4 : line.kind == 'D' ? 1 : 0) || strchr("PDS", line.kind) == NULL) {
        end("it isn't a line of OUT");
    }
    return line;
}

static void add(struct timed_line line) {
    static size_t room;
    if (count + 2 > room) {
        room = room * 2 + 4096;
        lines = realloc(lines, room * sizeof *lines);
    }
    if (lines == NULL) {
        end("there is no memory");
    }
    lines[count++] = line;
    lines[count] = (struct timed_line){.due_ns = line.due_ns + (line.kind == 'D' ? line.us * 1000 : 0)};
}

/* Takes all lines, in the order of OUT. */
static void read_all(FILE *out) {
    char text[LONGEST];
    char timed[LONGEST];
    uint64_t before_ns = 0;
    while (fgets(text, LONGEST, out) != NULL) {
        char *rest = timed;
        uint64_t due_ns = fgets(timed, LONGEST, stdin) != NULL ? strtoull(timed, &rest, 10) : 0;
        if (rest[0] != ' ' || strcmp(rest + 1, text) != 0) {
            end("it isn't the next line of OUT");
        }
        if (due_ns < before_ns) {
            end("it is due before the one before it");
        }
        add(line_of(text, due_ns));
        before_ns = due_ns;
    }
    if (fgets(timed, LONGEST, stdin) != NULL) {
        end("OUT has no such line");
    }
}

int main(int words, char **given) {
    struct motors motors;
    double limits[11];
    FILE *out = words == 13 ? fopen(given[1], "r") : NULL;
    if (out == NULL) {
        fputs("OUT and 11 limits, please\n", stderr);
        return 2;
    }
    for (int word = 0; word < 11; word++) {
        limits[word] = strtod(given[word + 2], NULL);
    }
    memcpy(&motors, limits, sizeof motors);
    read_all(out);
    struct verdict verdict = count > 0 ? judge(lines, &motors) : right();
    if (verdict.what != NULL) {
        printf("line %zu: %s: %.6g, at most %.6g\n", verdict.line + 1, verdict.what, verdict.is, verdict.most);
    }
    return verdict.what != NULL;
}
