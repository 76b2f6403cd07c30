#define _POSIX_C_SOURCE 200809L
#include "toml.h"

#include <errno.h>
#include <fcntl.h>
#include <string.h>
#include <sys/stat.h>
#include <unistd.h>

#include "utf8.h"

enum { MOST_BYTES = 1 << 20 };

/* The bytes of a file; its size, or -1 with errno. */
static ssize_t read_file(int file, char text[MOST_BYTES + 1]) {
    ssize_t size = 0;
    ssize_t got = 1;
    while (got > 0 && size <= MOST_BYTES) {
        got = read(file, text + size, (size_t)(MOST_BYTES + 1 - size));
        if (got < 0 && errno == EINTR) {
            got = 1;
            continue;
        }
        size += got > 0 ? got : 0;
    }
    return got < 0 ? -1 : size;
}

bool toml_open(struct toml *toml, const char *path, struct cause *why) {
    static char text[MOST_BYTES + 1];
    struct stat what = {0};
    int file = open(path, O_RDONLY | O_CLOEXEC | O_NONBLOCK); /* which waits for nobody who writes a pipe */
    bool is_open = file >= 0 && fstat(file, &what) == 0;
    bool is_file = S_ISREG(what.st_mode) || S_ISDIR(what.st_mode); /* a folder can't be read, which is said */
    ssize_t size = is_open && is_file ? read_file(file, text) : -1;
    int error = errno;
    if (file >= 0) {
        close(file);
    }
    if (is_open && !is_file) {
        return because(why, "%s: no file", path);
    }
    if (size < 0) {
        return because(why, "%s: %s", path, strerror(error));
    }
    if (size > MOST_BYTES) {
        return because(why, "%s: it has more than 1,048,576 bytes", path);
    }
    *toml = (struct toml){{text, text + size}, {text, text}, 1, path, why};
    scan_word(&toml->scan, "\xef\xbb\xbf");
    return true;
}

bool toml_refuse(const struct toml *toml, const char *what) {
    return because(toml->why, "%s:%d: %s", toml->path, toml->line, what);
}

bool is_named(const struct scan *name, const char *word) {
    size_t size = (size_t)(name->end - name->at);
    return strlen(word) == size && memcmp(word, name->at, size) == 0;
}

bool has_table(const struct name *name) {
    return !scan_is_over(&name->table);
}

static void pass_blanks(struct scan *scan) {
    while (!scan_is_over(scan) && (*scan->at == ' ' || *scan->at == '\t')) {
        scan->at++;
    }
}

/* Passes a character of a comment or of a text in quotes, where none of control but a tab can stand. */
static bool pass_character(struct toml *toml) {
    struct scan *scan = &toml->scan;
    size_t size = utf8_size(scan->at, (size_t)(scan->end - scan->at));
    if (size == 0) {
        return toml_refuse(toml, "not UTF-8");
    }
    unsigned char first = (unsigned char)*scan->at;
    if ((first < ' ' && first != '\t') || first == 0x7f) {
        return toml_refuse(toml, "a control character can't stand there");
    }
    scan->at += size;
    return true;
}

/* Passes a comment, if one begins here. */
static bool pass_comment(struct toml *toml) {
    struct scan *scan = &toml->scan;
    bool is_right = true;
    if (scan_is_over(scan) || *scan->at != '#') {
        return true;
    }
    while (is_right && !scan_is_over(scan) && *scan->at != '\n' && *scan->at != '\r') {
        is_right = pass_character(toml);
    }
    return is_right;
}

static bool pass_line_end(struct toml *toml) {
    if (!scan_word(&toml->scan, "\n") && !scan_word(&toml->scan, "\r\n")) {
        return false;
    }
    toml->line++;
    return true;
}

/* Passes blanks, comments and line ends. */
static bool pass_space(struct toml *toml) {
    do {
        pass_blanks(&toml->scan);
        if (!pass_comment(toml)) {
            return false;
        }
    } while (pass_line_end(toml));
    return true;
}

/* Passes the rest of a line behind what it says. */
static bool pass_rest(struct toml *toml, const char *otherwise) {
    pass_blanks(&toml->scan);
    return pass_comment(toml)
        && (scan_is_over(&toml->scan) || pass_line_end(toml) || toml_refuse(toml, otherwise));
}

/* A decimal number, as TOML has it: no zeros before it, underscores between digits alone. */
static bool read_number(struct toml *toml, int64_t *value) {
    struct scan *scan = &toml->scan;
    bool is_below = scan_word(scan, "-");
    if (!is_below) {
        scan_word(scan, "+");
    }
    char digits[20];
    size_t count = 0;
    while (!scan_is_over(scan) && count < sizeof digits) {
        bool is_digit = *scan->at >= '0' && *scan->at <= '9';
        bool is_between = *scan->at == '_' && count > 0 && scan->at[-1] != '_';
        if (!is_digit && !is_between) {
            break;
        }
        if (is_digit) {
            digits[count] = *scan->at;
            count++;
        }
        scan->at++;
    }
    struct scan number = {digits, digits + count};
    uint64_t size = 0;
    if (count == 0 || scan->at[-1] == '_' || !scan_whole(&number, 19, &size) || size > INT64_MAX) {
        return toml_refuse(toml, "not a decimal whole number");
    }
    *value = is_below ? -(int64_t)size : (int64_t)size;
    return true;
}

static bool read_array(struct toml *toml, struct value *value) {
    if (!pass_space(toml)) {
        return false;
    }
    while (!scan_word(&toml->scan, "]")) {
        int64_t number = 0;
        if (!read_number(toml, &number)) {
            return false;
        }
        if (value->count == MOST_VALUES) {
            value->is_too_long = true;
        } else {
            value->numbers[value->count] = number;
            value->count++;
        }
        if (!pass_space(toml)) {
            return false;
        }
        if (!scan_word(&toml->scan, ",")) {
            return scan_word(&toml->scan, "]") || toml_refuse(toml, "no ']' at an array's end");
        }
        if (!pass_space(toml)) {
            return false;
        }
    }
    return true;
}

/* Whether a text in quotes begins here. */
static bool has_quote(const struct scan *scan) {
    return !scan_is_over(scan) && (*scan->at == '"' || *scan->at == '\'');
}

/* Reads what stands in quotes, of one line and without an escape. */
static bool read_quoted(struct toml *toml, struct scan *words) {
    struct scan *scan = &toml->scan;
    char quote = *scan->at;
    scan->at++;
    words->at = scan->at;
    while (!scan_is_over(scan) && *scan->at != quote) {
        if (quote == '"' && *scan->at == '\\') {
            return toml_refuse(toml, "an escape with \\ isn't read here: write the character itself");
        }
        if (!pass_character(toml)) {
            return false;
        }
    }
    words->end = scan->at;
    if (scan_is_over(scan)) {
        return toml_refuse(toml, "a quote without its end");
    }
    scan->at++;
    return true;
}

bool toml_read_value(struct toml *toml, struct value *value) {
    struct scan *scan = &toml->scan;
    bool is_right = false;
    *value = (struct value){.text.at = scan->at};
    if (scan_word(scan, "[")) {
        value->kind = NUMBERS;
        is_right = read_array(toml, value);
    } else if (has_quote(scan)) {
        value->kind = WORDS;
        is_right = read_quoted(toml, &value->words);
    } else {
        value->kind = NUMBER;
        value->count = 1;
        is_right = read_number(toml, &value->numbers[0]);
    }
    value->text.end = scan->at;
    return is_right && pass_rest(toml, "more than a value after a key");
}

static bool is_of_name(char letter) {
    return (letter >= 'a' && letter <= 'z') || (letter >= 'A' && letter <= 'Z') || (letter >= '0' && letter <= '9')
        || letter == '_' || letter == '-';
}

/* Reads a part of a name, with the blanks around it. */
static bool read_part(struct toml *toml, struct scan *part) {
    struct scan *scan = &toml->scan;
    pass_blanks(scan);
    part->at = scan->at;
    bool is_quoted = has_quote(scan);
    if (is_quoted && !read_quoted(toml, part)) {
        return false;
    }
    while (!is_quoted && !scan_is_over(scan) && is_of_name(*scan->at)) {
        scan->at++;
    }
    part->end = is_quoted ? part->end : scan->at;
    pass_blanks(scan);
    return !scan_is_over(part) || toml_refuse(toml, "not in the form KEY = VALUE or [TABLE]");
}

/* Refuses a name of more parts than there can be. */
static bool has_no_more(const struct toml *toml, const struct scan *part) {
    bool is_deeper = !scan_is_over(&toml->scan) && *toml->scan.at == '.';
    return !is_deeper || because(toml->why, "%s:%d: %.*s is no table within a table: none is known", toml->path,
                                 toml->line, (int)(part->end - part->at), part->at);
}

static bool read_table(struct toml *toml, struct name *name) {
    name->key = (struct scan){toml->scan.at, toml->scan.at};
    if (!read_part(toml, &name->table) || !has_no_more(toml, &name->table)) {
        return false;
    }
    toml->table = name->table;
    return (scan_word(&toml->scan, "]") || toml_refuse(toml, "not in the form [TABLE]"))
        && pass_rest(toml, "more than a table's name in a line");
}

/* At the file's begin a key may stand with its table, as `inputs.door`. */
static bool read_key(struct toml *toml, struct name *name) {
    name->table = toml->table;
    if (!read_part(toml, &name->key)) {
        return false;
    }
    if (!has_table(name) && scan_word(&toml->scan, ".")) {
        name->table = name->key;
        if (!read_part(toml, &name->key)) {
            return false;
        }
    }
    bool is_right = has_no_more(toml, &name->key)
        && (scan_word(&toml->scan, "=") || toml_refuse(toml, "not in the form KEY = VALUE"));
    pass_blanks(&toml->scan);
    return is_right;
}

enum next toml_next(struct toml *toml, struct name *name) {
    if (!pass_space(toml)) {
        return NEXT_WRONG;
    }
    if (scan_is_over(&toml->scan)) {
        return NEXT_END;
    }
    if (scan_word(&toml->scan, "[")) {
        return read_table(toml, name) ? NEXT_TABLE : NEXT_WRONG;
    }
    return read_key(toml, name) ? NEXT_KEY : NEXT_WRONG;
}
