/* A file of settings: keys with whole numbers, arrays of them, or text in quotes, at its begin or in tables. It is read
 * as TOML has it, or refused: what else TOML has, as tables in tables, is refused by its name, and nothing is passed
 * over. */
#ifndef TOML_H
#define TOML_H

#include <stdbool.h>
#include <stdint.h>

#include "cause.h"
#include "scan.h"

enum { MOST_VALUES = 128 };

struct toml {
    struct scan scan;
    struct scan table; /* in which the reader is; none before the first one */
    int line;
    const char *path;
    struct cause *why; /* why something can't be read */
};

/* The name of a table, which has no key, or of a key, with the table that it is in; no table at the file's begin. */
struct name {
    struct scan table;
    struct scan key;
};

enum value_kind { NUMBER, NUMBERS, WORDS };

/* A number, an array of numbers, or what stands in quotes. */
struct value {
    struct scan text; /* as it stands there */
    enum value_kind kind;
    bool is_too_long; /* more numbers than MOST_VALUES */
    int count;
    int64_t numbers[MOST_VALUES];
    struct scan words;
};

enum next { NEXT_TABLE, NEXT_KEY, NEXT_END, NEXT_WRONG };

/* Reads a file, over the one that was open before. Returns false, with the cause. */
bool toml_open(struct toml *toml, const char *path, struct cause *why);

/* Says what is wrong with the line at which the reader is; returns false. */
bool toml_refuse(const struct toml *toml, const char *what);

/* Reads the next name, with the line's end behind a table's, and with the = behind a key. NEXT_WRONG has its cause. */
enum next toml_next(struct toml *toml, struct name *name);

/* Reads the value behind a key, and its line's end. Returns false, with the cause. */
bool toml_read_value(struct toml *toml, struct value *value);

/* Whether a name is this one. */
bool is_named(const struct scan *name, const char *word);

/* Whether a table is a name's. */
bool has_table(const struct name *name);

#endif
