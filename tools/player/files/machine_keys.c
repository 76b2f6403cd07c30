#include "machine_keys.h"

#include <string.h>

#include "backlash.h"
#include "inputs.h"
#include "machine.h"
#include "sink_serial.h"
#include "window.h"

enum { FARTHEST_UM = 10000000 }; /* from machine 0 */

struct table {
    const char *name;
    const char *keys; /* in words */
};

static const struct table tables[TABLES] = {
    [MOTION] = {"motion", "one of its five"}, [WINDOW] = {"window", "lines"}, [WAIT] = {"wait", "spindle_s"},
    [TURNS] = {"spindle", "max_rpm"}, [BACKLASH] = {"backlash", "steps"},
    [SINK] = {"sink", "line, baud or debounce_us"},
    [INPUTS] = {"inputs", "one of its eight"}, [HOME] = {"home", "one of its nine"},
    [SETTER] = {"setter", "one of its eight"}};

struct key {
    int table;
    const char *name;
    int values; /* 3, one for each axis, 1, MOST_INPUTS for up to so many, or 0 for a text in quotes */
    int64_t least;
    int64_t most;
    const char *takes; /* the same in words */
};

static const struct key keys[KEYS] = {
    [ACCEL] = {MOTION, "accel_mm_s2", 3, 1, 1000000, "three whole numbers from 1 to 1000000"},
    [RATE] = {MOTION, "rate_mm_min", 3, 0, 100000, "three whole numbers from 0 to 100000"},
    [START] = {MOTION, "start_mm_min", 3, 0, 100000, "three whole numbers from 0 to 100000"},
    [SLACK] = {MOTION, "slack_steps", 1, 1, 64, "a whole number from 1 to 64"},
    [MOST] = {MOTION, "most_percent", 1, 100, 200, "a whole number from 100 to 200"},
    [LINES] = {WINDOW, "lines", 1, 0, WINDOW_MOST, "a whole number from 0 to 8000"},
    [SPINDLE] = {WAIT, "spindle_s", 1, 0, 3600, "a whole number from 0 to 3600"},
    [MAX_RPM] = {TURNS, "max_rpm", 1, 1, 9999999, "a whole number from 1 to 9999999"},
    [STEPS] = {BACKLASH, "steps", 3, 0, MOST_BACKLASH, "three whole numbers from 0 to 999"},
    [LINE] = {SINK, "line", 0, 1, SINK_LINE_ROOM - 1,
              "the path of the sink's serial line in \"quotes\", of at most 255 bytes"},
    [BAUD] = {SINK, "baud", 1, 115200, 4000000, "one of the rates of a serial line, 115200 to 4000000"},
    [DEBOUNCE] = {SINK, "debounce_us", 1, 0, 10000, "a whole number from 0 to 10000"},
    [STOP] = {INPUTS, "emergency_stop", 1, -1, 15, "a whole number from -1 to 15"},
    [LIMITS_LOW] = {INPUTS, "limits_low", 3, -1, 15, "three whole numbers from -1 to 15"},
    [LIMITS_HIGH] = {INPUTS, "limits_high", 3, -1, 15, "three whole numbers from -1 to 15"},
    [DOOR] = {INPUTS, "door", 1, -1, 15, "a whole number from -1 to 15"},
    [AT_SPEED] = {INPUTS, "spindle_at_speed", 1, -1, 15, "a whole number from -1 to 15"},
    [PROBE] = {INPUTS, "probe", 1, -1, 15, "a whole number from -1 to 15"},
    [LOW] = {INPUTS, "on_while_low", MOST_INPUTS, 0, 15, "at most sixteen whole numbers from 0 to 15"},
    [AT_SPEED_S] = {INPUTS, "at_speed_s", 1, 1, 3600, "a whole number from 1 to 3600"},
    [ORDER] = {HOME, "order", 3, 0, 3, "three whole numbers from 0 to 3"},
    [SWITCH] = {HOME, "switch", 3, 0, 15, "three whole numbers from 0 to 15"},
    [DIRECTION] = {HOME, "direction", 3, -1, 1, "three whole numbers, -1 or 1"},
    [FAST] = {HOME, "fast_mm_min", 3, 1, 100000, "three whole numbers from 1 to 100000"},
    [SLOW] = {HOME, "slow_mm_min", 3, 1, 100000, "three whole numbers from 1 to 100000"},
    [PULL_OFF] = {HOME, "pull_off_um", 3, 1, 1000000, "three whole numbers from 1 to 1000000"},
    [AT] = {HOME, "at_um", 3, -FARTHEST_UM, FARTHEST_UM, "three whole numbers from -10000000 to 10000000"},
    [WAY] = {HOME, "way_mm", 3, 1, 100000, "three whole numbers from 1 to 100000"},
    [AGREE] = {HOME, "agree_um", 1, 0, 1000000, "a whole number from 0 to 1000000"},
    [HEIGHT] = {SETTER, "height_um", 1, -FARTHEST_UM, FARTHEST_UM,
                "a whole number of micrometres from -10000000 to 10000000"},
    [OVER] = {SETTER, "at_um", 3, -FARTHEST_UM, FARTHEST_UM, "three whole numbers from -10000000 to 10000000"},
    [PROBE_TOOL] = {SETTER, "probe_tool", 1, 1, 128, "a whole number from 1 to 128"},
    [RADIUS] = {SETTER, "probe_radius_um", 1, 0, 50000, "a whole number from 0 to 50000"},
    [TOUCH_FAST] = {SETTER, "fast_mm_min", 1, 1, 100000, "a whole number from 1 to 100000"},
    [TOUCH_SLOW] = {SETTER, "slow_mm_min", 1, 1, 100000, "a whole number from 1 to 100000"},
    [RETRACT] = {SETTER, "retract_um", 1, 1, 50000, "a whole number from 1 to 50000"},
    [TOUCH_AGREE] = {SETTER, "agree_um", 1, 0, 1000000, "a whole number from 0 to 1000000"},
};

/* The number of a table; TABLES, with the cause, for one that isn't known. */
static int table_of(const struct toml *toml, const struct scan *name) {
    int table = 0;
    while (table < TABLES && !is_named(name, tables[table].name)) {
        table++;
    }
    if (table == TABLES) {
        because(toml->why, "%s: %.*s isn't one of the nine tables of a machine's file: motion, window, wait, spindle,"
                " backlash, sink, inputs, home, setter", toml->path, (int)(name->end - name->at), name->at);
    }
    return table;
}

static bool begin_table(const struct toml *toml, const struct name *name, struct content *content) {
    int table = table_of(toml, &name->table);
    if (table == TABLES) {
        return false;
    }
    if (content->is_found[table]) {
        return because(toml->why, "%s:%d: the table [%s] stands twice", toml->path, toml->line, tables[table].name);
    }
    content->is_found[table] = true;
    return true;
}

/* Reads a key's value. */
static bool read_entry(struct toml *toml, const struct name *name, struct content *content) {
    int table = table_of(toml, has_table(name) ? &name->table : &name->key);
    if (table == TABLES) {
        return false;
    }
    if (!has_table(name)) {
        return because(toml->why, "%s: %s isn't a table: [%s], and its keys below it", toml->path,
                       tables[table].name, tables[table].name);
    }
    int number = 0;
    while (number < KEYS && (keys[number].table != table || !is_named(&name->key, keys[number].name))) {
        number++;
    }
    if (number == KEYS) {
        return because(toml->why, "%s: %s has a key that isn't %s: %.*s", toml->path, tables[table].name,
                       tables[table].keys, (int)(name->key.end - name->key.at), name->key.at);
    }
    if (content->is_there[number]) {
        return toml_refuse(toml, "the key stands twice");
    }
    content->is_found[table] = true;
    content->is_there[number] = true;
    return toml_read_value(toml, &content->values[number]);
}

static bool read_all(struct toml *toml, struct content *content) {
    struct name name;
    bool is_right = true;
    enum next next = toml_next(toml, &name);
    while (is_right && (next == NEXT_TABLE || next == NEXT_KEY)) {
        is_right = next == NEXT_TABLE ? begin_table(toml, &name, content) : read_entry(toml, &name, content);
        next = is_right ? toml_next(toml, &name) : NEXT_WRONG;
    }
    return next == NEXT_END;
}

static bool is_missing(const struct content *content, int key) {
    return content->is_found[keys[key].table] && !content->is_there[key];
}

static bool check_missing(const char *path, const struct content *content, struct cause *why) {
    static const int needed[] = {ACCEL, LINE, ORDER, SWITCH, DIRECTION, FAST, SLOW, PULL_OFF, AT};
    if (!content->is_found[MOTION]) {
        return because(why, "%s: the table [motion] is missing: it says what the motors allow", path);
    }
    for (size_t at = 0; at < sizeof needed / sizeof needed[0]; at++) {
        const struct key *key = &keys[needed[at]];
        if (is_missing(content, needed[at])) {
            return because(why, "%s: %s: %s is missing: %s", path, tables[key->table].name, key->name, key->takes);
        }
    }
    return true;
}

/* Whether a key has as many values as it takes, of their kind. */
static bool has_kind(const struct key *key, const struct value *value) {
    if (key->values == 0) {
        return value->kind == WORDS;
    }
    if (key->values == 1) {
        return value->kind == NUMBER;
    }
    return value->kind == NUMBERS && !value->is_too_long
        && (value->count == key->values || (key->values == MOST_INPUTS && value->count < MOST_INPUTS));
}

static bool is_right(const struct key *key, const struct value *value) {
    int64_t size = value->words.end - value->words.at;
    if (!has_kind(key, value) || (key->values == 0 && (size < key->least || size > key->most))) {
        return false;
    }
    for (int at = 0; at < value->count; at++) {
        if (value->numbers[at] < key->least || value->numbers[at] > key->most) {
            return false;
        }
    }
    return key != &keys[BAUD] || serial_has_rate(value->numbers[0]);
}

static bool check_values(const char *path, const struct content *content, struct cause *why) {
    for (int number = 0; number < KEYS; number++) {
        const struct key *key = &keys[number];
        if (content->is_there[number] && !is_right(key, &content->values[number])) {
            return because(why, "%s: %s: %s takes %s", path, tables[key->table].name, key->name, key->takes);
        }
    }
    return true;
}

bool machine_keys_read(const char *path, struct content *content, struct cause *why) {
    struct toml toml;
    memset(content, 0, sizeof *content);
    return toml_open(&toml, path, why) && read_all(&toml, content) && check_missing(path, content, why)
        && check_values(path, content, why);
}

int64_t number_of(const struct content *content, int key, int64_t otherwise) {
    return content->is_there[key] ? content->values[key].numbers[0] : otherwise;
}
