#define _GNU_SOURCE
#include "options.h"

#include <errno.h>
#include <getopt.h>
#include <stdlib.h>
#include <string.h>

#include "record.h"

static const char usage[] = "usage: player [-unrtfyc] [-a X Y Z] [-o SECONDS] [-b BYTES] [-s SOCKET] [-p PINS]"
                            " [-m FILE] [-i FILE] [-g LINE] [-l Z -e RATE] OUT SETTINGS POSITION, or player --version";

static const struct option words[] = {
    {"untimed", no_argument, NULL, 'u'},        {"anew", no_argument, NULL, 'n'},
    {"restored", no_argument, NULL, 'r'},       {"no-ask-tool", no_argument, NULL, 't'},
    {"at", required_argument, NULL, 'a'},       {"off-after", required_argument, NULL, 'o'},
    {"pipe", required_argument, NULL, 'b'},     {"progress", required_argument, NULL, 's'},
    {"pins", required_argument, NULL, 'p'},     {"machine", required_argument, NULL, 'm'},
    {"times", required_argument, NULL, 'i'},    {"follow", no_argument, NULL, 'f'},
    {"go-to-line", required_argument, NULL, 'g'}, {"lift", required_argument, NULL, 'l'},
    {"feed", required_argument, NULL, 'e'},     {"yes", no_argument, NULL, 'y'},
    {"across-tools", no_argument, NULL, 'c'},
    {NULL, 0, NULL, 0},
};

/* Seconds, as "2.5", in nanoseconds. */
static bool read_seconds(const char *text, int64_t *ns, struct cause *why) {
    int64_t millionths = 0; /* as millimetres are read, in nanometres */
    size_t size = strlen(text);
    bool is_number = size > 0 && text[0] >= '0' && text[0] <= '9' && text[size - 1] != '.'
        && nm_read(text, size, &millionths);
    if (!is_number || millionths > INT64_C(3600000000)) {
        return because(why, "not a number of seconds from 0 to 3600: %s", text);
    }
    *ns = millionths * 1000;
    return true;
}

static bool read_pipe_bytes(const char *text, int *bytes, struct cause *why) {
    char *stop = NULL;
    errno = 0;
    long value = strtol(text, &stop, 10);
    if (text[0] < '0' || text[0] > '9' || *stop != '\0' || errno != 0 || value < 1 || value > 1 << 20) {
        return because(why, "not a number of bytes from 1 to 1048576: %s", text);
    }
    *bytes = (int)value;
    return true;
}

static bool read_line_number(const char *text, struct options *options, struct cause *why) {
    size_t size = strlen(text);
    options->goes = size > 0 && size <= 18 && strspn(text, "0123456789") == size;
    options->goes_to = options->goes ? strtoull(text, NULL, 10) : 0;
    return options->goes || because(why, "not a number of lines: %s", text);
}

/* The three words of --at. */
static bool read_axes(int count, char **given, struct options *options, struct cause *why) {
    optind--; /* the first one is taken already */
    if (count - optind < 3) {
        return because(why, "%s", usage);
    }
    for (int axis = 0; axis < 3; axis++) {
        const char *text = given[optind];
        if (!nm_read(text, strlen(text), &options->place_nm[axis])) {
            return because(why, "not a number of millimetres with at most six decimals: %s", text);
        }
        optind++;
    }
    options->has_place = true;
    return true;
}

static bool read_option(int option, int count, char **given, struct options *options, struct cause *why) {
    switch (option) {
    case 'u':
        options->is_untimed = true;
        return true;
    case 'n':
        options->begins_anew = true;
        return true;
    case 'r':
        options->is_restored = true;
        return true;
    case 't':
        options->asks_no_tool = true;
        return true;
    case 'a':
        return read_axes(count, given, options, why);
    case 'o':
        return read_seconds(optarg, &options->off_after_ns, why);
    case 'b':
        return read_pipe_bytes(optarg, &options->pipe_bytes, why);
    case 's':
        options->socket = optarg;
        return true;
    case 'p':
        options->pins = optarg;
        return true;
    case 'm':
        options->machine = optarg;
        return true;
    case 'i':
        options->times = optarg;
        return true;
    case 'f':
        options->follows = true;
        return true;
    case 'g':
        return read_line_number(optarg, options, why);
    case 'l':
        options->lift = optarg;
        return true;
    case 'e':
        options->feed = optarg;
        return true;
    case 'y':
        options->is_agreed = true;
        return true;
    case 'c':
        options->crosses_tools = true;
        return true;
    default:
        return because(why, "%s", usage);
    }
}

bool options_keep_times(const struct options *options) {
    return !options->is_untimed || options->times != NULL;
}

bool options_read(int count, char **given, struct options *options, struct cause *why) {
    *options = (struct options){.pipe_bytes = 4096, .off_after_ns = INT64_C(10000000000)};
    opterr = 0;
    int option = getopt_long(count, given, "unrtfyca:o:b:s:p:m:i:g:l:e:", words, NULL);
    while (option != -1) {
        if (!read_option(option, count, given, options, why)) {
            return false;
        }
        option = getopt_long(count, given, "unrtfyca:o:b:s:p:m:i:g:l:e:", words, NULL);
    }
    if (count - optind != 3) {
        return because(why, "%s", usage);
    }
    if (!options->goes && (options->lift != NULL || options->crosses_tools || options->is_agreed)) {
        return because(why, "--lift, --across-tools and --yes go with --go-to-line B");
    }
    if ((options->lift == NULL) != (options->feed == NULL)) {
        return because(why, "--lift Z and --feed RATE go together: so fast the last leg goes, down into the work");
    }
    options->out = given[optind];
    options->settings = given[optind + 1];
    options->position = given[optind + 2];
    return true;
}
