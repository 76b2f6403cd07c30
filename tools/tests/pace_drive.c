/* Paces lines as a test says: a line of OUT goes in, `E` ends what is known, `N SQUARE` gives out a line and prints its
 * time, or -; `O PERCENT` does so at so many percent; `W` prints how many lines are wanted in hand. The words are the
 * limits: accel, rate and start by axes, half, slack, most percent. */
#include <inttypes.h>
#include <stdio.h>
#include <stdlib.h>
#include <string.h>

#include "pace.h"
#include "window.h"

static struct pace pace;
static struct window window;

static void give(uint64_t wanted) {
    uint64_t ns = 0;
    if (pace_next(&pace, wanted, &ns)) {
        window_leave(&window, pace.first);
        printf("%" PRIu64 "\n", ns);
    } else {
        puts("-");
    }
}

static void heed(const char *text, size_t size) {
    struct cause why;
    struct line line;
    if (text[0] == 'E') {
        pace_end(&pace);
    } else if (text[0] == 'W') {
        printf("%u\n", window_lines(&window));
    } else if (text[0] == 'N') {
        give(strtoull(text + 2, NULL, 10));
    } else if (text[0] == 'O') {
        give(pace_wanted(&pace, (unsigned)strtoul(text + 2, NULL, 10)));
    } else if (line_read(text, size, 1, &line, &why) && !pace_is_full(&pace)) {
        pace_push(&pace, &line);
        window_take(&window, &line);
    } else {
        puts("refused");
    }
}

int main(int count, char **given) {
    struct pace_limits limits;
    uint64_t words[12];
    char text[256];
    for (int word = 0; word < 12 && word + 1 < count; word++) {
        words[word] = strtoull(given[word + 1], NULL, 10);
    }
    memcpy(&limits, words, sizeof limits);
    pace_begin(&pace, &limits);
    window_begin(&window, &limits, 0);
    while (fgets(text, sizeof text, stdin) != NULL) {
        heed(text, strcspn(text, "\n"));
    }
    return 0;
}
