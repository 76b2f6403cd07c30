/* The words of the command line. */
#ifndef OPTIONS_H
#define OPTIONS_H

#include <stdbool.h>
#include <stdint.h>

#include "cause.h"

struct options {
    bool is_untimed;
    bool begins_anew;
    bool is_restored;
    bool asks_no_tool;
    bool follows;
    bool goes;          /* to a line of OUT first .. */
    uint64_t goes_to;   /* .. which is this .. */
    bool is_agreed;     /* .. without a question .. */
    bool crosses_tools; /* .. past tool changes too .. */
    const char *lift;   /* .. by legs over this height; NULL for none .. */
    const char *feed;   /* .. of which the last one goes at this rate, in millimetres a minute */
    bool has_place;
    int64_t place_nm[3];
    int64_t off_after_ns;
    int pipe_bytes;
    const char *socket;
    const char *pins;
    const char *machine;
    const char *times;
    const char *out;
    const char *settings;
    const char *position;
};

/* Whether the times of lines count: they are waited for, or written. */
bool options_keep_times(const struct options *options);

/* Reads the words. Returns false, with the cause. */
bool options_read(int count, char **given, struct options *options, struct cause *why);

#endif
