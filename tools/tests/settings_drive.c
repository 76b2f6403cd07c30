/* Reads texts as tools/player reads a machine's file, or settings, and says what it found.
 *
 *     settings_drive FILE < TEXTS
 *
 * TEXTS are lines `machine SIZE` or `settings SIZE`, each with so many bytes behind it, which are put into FILE. A line
 * is answered to each: `refused CAUSE`, or what the keys say, by their numbers. */
#define _POSIX_C_SOURCE 200809L
#include <inttypes.h>
#include <stdio.h>
#include <stdlib.h>
#include <string.h>

#include "machine_keys.h"
#include "settings.h"

static void print_value(int key, const struct value *value) {
    printf("%d", key);
    for (int at = 0; at < value->count; at++) {
        printf(" %" PRId64, value->numbers[at]);
    }
    for (const char *at = value->words.at; at < value->words.end; at++) {
        printf(" %u", (unsigned char)*at);
    }
    printf(";");
}

static bool read_machine(const char *path, struct cause *why) {
    static struct content content;
    bool is_right = machine_keys_read(path, &content, why);
    for (int key = 0; key < KEYS && is_right; key++) {
        if (content.is_there[key]) {
            print_value(key, &content.values[key]);
        }
    }
    return is_right;
}

static bool read_settings(const char *path, struct cause *why) {
    struct settings settings;
    bool is_right = settings_read(path, &settings, why);
    for (int axis = 0; axis < 3 && is_right; axis++) {
        printf("%" PRId64 " %" PRId64 " %" PRId64 ";", settings.step_nm[axis], settings.low_nm[axis],
               settings.high_nm[axis]);
    }
    if (is_right) {
        printf("%" PRId64 " %" PRId64, settings.traverse_nm_per_min, settings.period_us);
    }
    return is_right;
}

/* Puts so many bytes of standard input into a file. */
static void fill(const char *path, size_t size) {
    static char text[1 << 20];
    FILE *file = fopen(path, "wb");
    if (file == NULL || size > sizeof text || fread(text, 1, size, stdin) != size
        || fwrite(text, 1, size, file) != size || fclose(file) != 0) {
        abort();
    }
}

int main(int count, char **given) {
    char word[16];
    size_t size = 0;
    struct cause why;
    while (count == 2 && scanf("%15s %zu", word, &size) == 2 && getchar() == '\n') {
        fill(given[1], size);
        if (!(strcmp(word, "machine") == 0 ? read_machine(given[1], &why) : read_settings(given[1], &why))) {
            char shown[CAUSE_ROOM];
            quote(shown, sizeof shown, why.text, strlen(why.text));
            printf("refused %s", shown);
        }
        printf("\n");
    }
    return 0;
}
