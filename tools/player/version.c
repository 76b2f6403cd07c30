#define _GNU_SOURCE
#include "version.h"

#include <errno.h>
#include <stdio.h>
#include <string.h>

#include "cause.h"

#ifndef BUILD
#define BUILD ""
#endif

enum { LINE_ROOM = 512 };

bool version_is_asked(int count, char **given) {
    return count == 2 && strcmp(given[1], "--version") == 0;
}

/* Prints the program's name and a file; whether that could be read. */
static bool tell_file(const char *path) {
    char line[LINE_ROOM];
    FILE *file = fopen(path, "r");
    if (file == NULL) {
        return false;
    }
    puts("player");
    while (fgets(line, sizeof line, file) != NULL) {
        fputs(line, stdout);
    }
    bool is_whole = ferror(file) == 0;
    fclose(file);
    return is_whole;
}

int version_tell(void) {
    const char *build = BUILD;
    if (build[0] == '\0') {
        puts("player\nbuilt from a checkout");
    } else if (!tell_file(build)) {
        say("player: %s: %s", build, strerror(errno));
        return 2;
    }
    if (fflush(stdout) != 0) {
        say("player: standard output: %s", strerror(errno));
        return 2;
    }
    return 0;
}
