#include "settings.h"

#include <string.h>

#include "toml.h"

enum { KEYS = 6 };

struct key {
    const char *name;
    int values; /* 3, 1, or MOST_VALUES for an array of any length up to that */
    int64_t least;
    int64_t most;
    const char *takes; /* the same in words */
};

enum { STEP, LOW, HIGH, TRAVERSE, PERIOD, TOOLS }; /* the numbers of `keys` */

static const struct key keys[KEYS] = {
    {"step_nm", 3, 10, 1000000, "three whole numbers of nanometres, 10 to 1,000,000"},
    {"low_nm", 3, INT64_C(-10000000000), 0, "three whole numbers of nanometres, -10,000,000,000 to 0"},
    {"high_nm", 3, 0, INT64_C(10000000000), "three whole numbers of nanometres, 0 to 10,000,000,000"},
    {"traverse_nm_per_min", 1, 1, INT64_C(100000000000),
     "a whole number of nanometres a minute, 1 to 100,000,000,000"},
    {"period_us", 1, 1, 1000000, "a whole number of microseconds, 1 to 1,000,000"},
    {"tools_nm", MOST_VALUES, 0, 1000000000,
     "an array of at most 128 whole numbers of nanometres, 0 to 1,000,000,000"},
};

/* What was read: the value of each key, if it is there. */
struct table {
    bool is_there[KEYS];
    struct value values[KEYS];
    struct scan unknown; /* a name that is none of the six, if there is one */
    struct value other;  /* and its value */
};

/* The number of a key; KEYS for one that is none of the six. */
static int number_of(const struct name *name) {
    int number = 0;
    while (number < KEYS && (has_table(name) || !is_named(&name->key, keys[number].name))) {
        number++;
    }
    return number;
}

static bool read_entry(struct toml *toml, const struct name *name, struct table *table) {
    int number = number_of(name);
    if (number == KEYS) {
        table->unknown = has_table(name) ? name->table : name->key;
        return toml_read_value(toml, &table->other);
    }
    if (table->is_there[number]) {
        return toml_refuse(toml, "the key stands twice");
    }
    table->is_there[number] = true;
    return toml_read_value(toml, &table->values[number]);
}

static bool read_all(struct toml *toml, struct table *table) {
    struct name name;
    bool is_right = true;
    enum next next = toml_next(toml, &name);
    while (is_right && (next == NEXT_TABLE || next == NEXT_KEY)) {
        if (next == NEXT_TABLE) {
            table->unknown = name.table;
        } else {
            is_right = read_entry(toml, &name, table);
        }
        next = is_right ? toml_next(toml, &name) : NEXT_WRONG;
    }
    return next == NEXT_END;
}

/* Whether the value is of its key's type. */
static bool has_type(const struct key *key, const struct value *value) {
    if (key->values == 1) {
        return value->kind == NUMBER;
    }
    return value->kind == NUMBERS && (key->values == MOST_VALUES || value->count == key->values);
}

static bool is_in_limits(const struct key *key, const struct value *value) {
    for (int at = 0; at < value->count; at++) {
        if (value->numbers[at] < key->least || value->numbers[at] > key->most) {
            return false;
        }
    }
    return true;
}

/* Refuses a value by the code of docs/SETTINGS.md. */
static bool refuse_value(const struct toml *toml, const struct table *table, int number, const char *code) {
    const struct scan *text = &table->values[number].text;
    return because(toml->why, "%s: %s = %.*s (%s): it takes %s", toml->path, keys[number].name,
                   (int)(text->end - text->at), text->at, code, keys[number].takes);
}

/* The faults S2 to S6 of docs/SETTINGS.md, in that order. */
static bool check(const struct toml *toml, const struct table *table) {
    for (int number = 0; number < KEYS; number++) {
        if (!table->is_there[number]) {
            return because(toml->why, "%s: %s is missing (S2): %s", toml->path, keys[number].name,
                           keys[number].takes);
        }
    }
    if (table->unknown.at != NULL) {
        return because(toml->why, "%s: %.*s isn't one of the six keys (S3)", toml->path,
                       (int)(table->unknown.end - table->unknown.at), table->unknown.at);
    }
    for (int number = 0; number < KEYS; number++) {
        if (!has_type(&keys[number], &table->values[number])) {
            return refuse_value(toml, table, number, "S4");
        }
    }
    for (int number = 0; number < KEYS; number++) {
        if (!is_in_limits(&keys[number], &table->values[number])) {
            return refuse_value(toml, table, number, "S5");
        }
    }
    return !table->values[TOOLS].is_too_long || refuse_value(toml, table, TOOLS, "S6");
}

bool settings_read(const char *path, struct settings *settings, struct cause *why) {
    static struct table table;
    struct toml toml;
    memset(&table, 0, sizeof table);
    if (!toml_open(&toml, path, why) || !read_all(&toml, &table) || !check(&toml, &table)) {
        return false;
    }
    memcpy(settings->step_nm, table.values[STEP].numbers, sizeof settings->step_nm);
    memcpy(settings->low_nm, table.values[LOW].numbers, sizeof settings->low_nm);
    memcpy(settings->high_nm, table.values[HIGH].numbers, sizeof settings->high_nm);
    settings->traverse_nm_per_min = table.values[TRAVERSE].numbers[0];
    settings->period_us = table.values[PERIOD].numbers[0];
    return true;
}
