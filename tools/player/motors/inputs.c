#include "inputs.h"

#include <stdio.h>
#include <string.h>

static const char *const limit_words[AXIS_ENDS][3] = {
    {"limit_x_low", "limit_y_low", "limit_z_low"},
    {"limit_x_high", "limit_y_high", "limit_z_high"},
};
static const char *const limit_names[AXIS_ENDS][3] = {{"X-", "Y-", "Z-"}, {"X+", "Y+", "Z+"}};

uint32_t input_bit(int input) {
    return input == NO_INPUT ? 0 : UINT32_C(1) << input;
}

bool input_is_on(uint32_t on, int input) {
    return (on & input_bit(input)) != 0;
}

uint32_t inputs_limits(const struct inputs *inputs) {
    uint32_t limits = 0;
    for (int axis = 0; axis < 3; axis++) {
        limits |= input_bit(inputs->limits[LOW_END][axis]) | input_bit(inputs->limits[HIGH_END][axis]);
    }
    return limits;
}

uint32_t inputs_stops(const struct inputs *inputs) {
    return input_bit(inputs->emergency_stop) | inputs_limits(inputs);
}

/* Adds a name, if there is room. */
static void add(char *text, size_t room, const char *name) {
    size_t size = strlen(text);
    if (size + strlen(name) + 2 <= room) {
        snprintf(text + size, room - size, "%s%s", size > 0 ? "," : "", name);
    }
}

/* Adds a name if its input is on; returns its bit. */
static uint32_t add_if_on(char *text, size_t room, uint32_t on, int input, const char *name) {
    if (input_is_on(on, input)) {
        add(text, room, name);
    }
    return input_bit(input);
}

/* Adds the numbers of inputs. */
static void add_numbers(char *text, size_t room, uint32_t on) {
    for (int input = 0; input < MOST_INPUTS; input++) {
        char name[16];
        snprintf(name, sizeof name, "input_%d", input);
        add_if_on(text, room, on, input, name);
    }
}

void inputs_print(const struct inputs *inputs, uint32_t on, char *text, size_t room) {
    text[0] = '\0';
    uint32_t named = add_if_on(text, room, on, inputs->emergency_stop, "emergency_stop");
    for (int at = 0; at < 2 * 3; at++) {
        int end = at % 2;
        named |= add_if_on(text, room, on, inputs->limits[end][at / 2], limit_words[end][at / 2]);
    }
    named |= add_if_on(text, room, on, inputs->door, "door");
    named |= add_if_on(text, room, on, inputs->spindle_at_speed, "spindle_at_speed");
    named |= add_if_on(text, room, on, inputs->probe, "probe");
    add_numbers(text, room, on & ~named);
    if (text[0] == '\0') {
        snprintf(text, room, "none");
    }
}

const char *inputs_limit_name(const struct inputs *inputs, uint32_t on) {
    const char *name = "";
    int count = 0;
    for (int at = 0; at < 2 * 3; at++) {
        if (input_is_on(on, inputs->limits[at % 2][at / 2])) {
            name = limit_names[at % 2][at / 2];
            count++;
        }
    }
    return count == 1 ? name : "";
}
