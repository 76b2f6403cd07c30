/* Paces a file of OUT by the pacer of tools/player, for bench/ramps.py: the words are the file, the acceleration of all
 * axes in steps a second, each second, and the lines in hand: - for as many as go in, without a count of them; or N, 0
 * for as many as tools/player wants, and the file of what each tick made. It prints the lines, the nanoseconds that OUT
 * says, those with ramps and those of the processor; and, weighted by time, of the lines in hand and then of those that
 * a loss of power costs the least, the median, the greatest of 99 % of the time and of all; at last the thousandths of
 * the time in which it costs any. */
#include <inttypes.h>
#include <stdio.h>
#include <stdlib.h>
#include <string.h>
#include <time.h>

#include "pace.h"
#include "window.h"

enum { AT_ONCE = 200 /* ticks that ngc-operate gives, at most */, PARTS = 16 /* of the lines wanted: one is free */ };

/* After a tick so many lines stand in OUT, and a session that follows a loss of power goes on with the line `next`. */
struct tick {
    uint32_t lines;
    uint32_t next;
};

/* How long there were so many lines, in nanoseconds. */
struct spread {
    uint64_t ns[PACE_ROOM + 1];
};

static struct pace pace;
static struct window window;
static struct line lines[PACE_ROOM];
static struct spread in_hand;
static struct spread lost;
static FILE *ticks; /* NULL where the lines in hand aren't counted: each line is a tick then */
static struct tick made;
static bool is_over;
static uint64_t out_ns;
static uint64_t paced_ns;

static bool read_one(FILE *file) {
    char text[256];
    struct cause why;
    struct line *line = &lines[pace.known % PACE_ROOM];
    if (fgets(text, sizeof text, file) == NULL) {
        return false;
    }
    if (!line_read(text, strlen(text) - 1, 1, line, &why)) {
        fprintf(stderr, "%s\n", why.text);
        exit(2);
    }
    pace_push(&pace, line);
    out_ns += line->kind == 'S' ? 0 : line->us * 1000;
    if (ticks != NULL) {
        window_take(&window, line);
    }
    return true;
}

/* Makes what the next tick makes; false if that was the last. */
static bool tick(FILE *file) {
    made.lines = (uint32_t)pace.known + 1;
    if (ticks != NULL && fread(&made, sizeof made, 1, ticks) != 1) {
        return false;
    }
    return made.lines == pace.known || read_one(file);
}

/* How many ticks are given: none until a sixteenth of the lines that are wanted is free. */
static uint64_t room(void) {
    uint64_t wanted = ticks != NULL ? window_lines(&window) : PACE_ROOM;
    uint64_t hand = pace.known - pace.first;
    uint64_t part = wanted < PARTS ? 1 : wanted / PARTS;
    uint64_t free = hand < wanted ? wanted - hand : 0;
    uint64_t most = ticks != NULL && free > AT_ONCE ? AT_ONCE : free;
    return free < part ? 0 : most;
}

static void refill(FILE *file) {
    uint64_t left = room();
    while (!is_over && left > 0) {
        is_over = !tick(file);
        left = left > 1 ? left - 1 : room();
    }
}

static void give(void) {
    uint64_t hand = pace.known - pace.first;
    uint64_t ns = 0;
    if (!pace_next(&pace, UINT64_MAX, &ns)) {
        pace_end(&pace);
        return;
    }
    paced_ns += ns;
    if (ticks != NULL) {
        in_hand.ns[hand] += ns;
        lost.ns[made.next > pace.first ? made.next - pace.first : 0] += ns;
        window_leave(&window, pace.first);
    }
}

/* The lines that there are for so many thousandths of the time, at most; for none of it the least. */
static uint64_t lines_of(const struct spread *spread, uint64_t thousandths) {
    uint64_t least = paced_ns / 1000 * thousandths;
    uint64_t sum = spread->ns[0];
    uint64_t count = 0;
    while (count < PACE_ROOM && (sum == 0 || sum < least)) {
        count++;
        sum += spread->ns[count];
    }
    return count;
}

static uint64_t most_of_all(const struct spread *spread) {
    uint64_t count = PACE_ROOM;
    while (count > 0 && spread->ns[count] == 0) {
        count--;
    }
    return count;
}

static void print_spread(const struct spread *spread) {
    printf(" %" PRIu64 " %" PRIu64 " %" PRIu64 " %" PRIu64, lines_of(spread, 0), lines_of(spread, 500),
           lines_of(spread, 990), most_of_all(spread));
}

/* Opens a file; the program ends where that isn't possible. */
static FILE *opened(const char *path) {
    FILE *file = fopen(path, "rb");
    if (file == NULL) {
        perror(path);
        exit(2);
    }
    return file;
}

int main(int count, char **given) {
    if (count != 4 && count != 5) {
        return 2;
    }
    uint64_t accel = strtoull(given[2], NULL, 10);
    const struct pace_limits limits = {.accel = {accel, accel, accel}, .half = 96, .slack = 2, .most_percent = 100};
    FILE *file = opened(given[1]);
    ticks = count == 5 ? opened(given[4]) : NULL;
    pace_begin(&pace, &limits);
    window_begin(&window, &limits, strtoull(given[3], NULL, 10));
    clock_t begun = clock();
    while (!is_over || pace.first < pace.known) {
        refill(file);
        give();
    }
    uint64_t cpu_ns = (uint64_t)((double)(clock() - begun) * 1e9 / CLOCKS_PER_SEC);
    printf("%" PRIu64 " %" PRIu64 " %" PRIu64 " %" PRIu64, pace.known, out_ns, paced_ns, cpu_ns);
    print_spread(&in_hand);
    print_spread(&lost);
    printf(" %" PRIu64 "\n", (paced_ns - lost.ns[0]) * 1000 / paced_ns);
    return 0;
}
