/* The sender's half of tools/sink, driven by lines.
 *
 *     begin TOKEN STOPS HALTS LOW TICKS    seeks the sink anew
 *     give VALUE BITS VALUE BITS ..        gives words, up to the first that isn't wanted
 *     force VALUE BITS VALUE BITS ..       gives words, wanted or not
 *     switch SPINDLE SPEED MIST FLOOD SELECTED SLOT
 *     step MS HEX                          takes these bytes of the line, then prints each frame that is to be sent
 *     stop AT_ONCE                         prints the frame that stops the sink
 * Each is answered by `. state given made session taken why`, after what it prints; `taken` is what became of what was
 * given last, as an enum sender_give. */
#define _POSIX_C_SOURCE 200809L
#include <inttypes.h>
#include <stdio.h>
#include <stdlib.h>
#include <string.h>

#include "sender.h"

static struct sender sender;
static enum sender_give taken;

static void print_frame(const uint8_t *line, size_t size) {
    for (size_t at = 0; at < size; at++) {
        printf("%02x", line[at]);
    }
    printf("\n");
}

/* Gives the outputs of a word, which hold the next word too. */
static void give_outputs(uint32_t low, char **rest) {
    struct sink_outputs outputs;
    uint32_t value = (uint32_t)strtoul(strtok_r(NULL, " \n", rest), NULL, 10);
    strtok_r(NULL, " \n", rest);
    wire_get_outputs(low, value, &outputs);
    taken = sender_switch(&sender, &outputs, false);
}

static void give(char *words, bool is_forced) {
    char *rest = NULL;
    char *text = strtok_r(words, " \n", &rest);
    taken = GIVE_TAKEN;
    while (text != NULL && taken == GIVE_TAKEN && (is_forced || sender_wants(&sender))) {
        uint32_t value = (uint32_t)strtoul(text, NULL, 10);
        uint8_t bits = (uint8_t)strtoul(strtok_r(NULL, " \n", &rest), NULL, 10);
        if ((bits & WORD_OUTPUT) != 0 && !is_forced) {
            give_outputs(value, &rest);
        } else {
            taken = sender_give(&sender, value & 0xffffff, (uint8_t)(value >> 24), bits);
        }
        text = strtok_r(NULL, " \n", &rest);
    }
}

static void set(const char *words) {
    struct sink_outputs outputs = {0};
    sscanf(words, "%" SCNu8 " %" SCNu64 " %" SCNu8 " %" SCNu8 " %" SCNu8 " %" SCNu8, &outputs.spindle, &outputs.speed,
           &outputs.mist, &outputs.flood, &outputs.selected, &outputs.slot);
    taken = sender_switch(&sender, &outputs, true);
}

static void take(const char *hex) {
    unsigned byte = 0;
    while (sscanf(hex, "%2x", &byte) == 1) {
        sender_read(&sender, (uint8_t)byte);
        hex += 2;
    }
}

static void step(char *words) {
    uint8_t line[WIRE_LINE];
    char *hex = words;
    uint32_t now = (uint32_t)strtoul(words, &hex, 10);
    take(*hex == ' ' ? hex + 1 : hex);
    size_t size = sender_write(&sender, now, line);
    while (size > 0) {
        print_frame(line, size);
        size = sender_write(&sender, now, line);
    }
}

static void begin(const char *words) {
    uint32_t token = 0;
    struct sink_inputs inputs = {0};
    uint32_t ticks = 0;
    sscanf(words, "%" SCNu32 " %" SCNu16 " %" SCNu16 " %" SCNu16 " %" SCNu32, &token, &inputs.stops, &inputs.halts,
           &inputs.low, &ticks);
    sender_begin(&sender, token, &inputs, ticks, 77);
}

static void obey(char *line) {
    uint8_t frame[WIRE_LINE];
    char *rest = line + strcspn(line, " \n");
    char what = line[0];
    if (what == 'b') {
        begin(rest);
    } else if (what == 'g' || what == 'f') {
        give(rest, what == 'f');
    } else if (line[1] == 'w') {
        set(rest);
    } else if (line[2] == 'e') {
        step(rest);
    } else {
        print_frame(frame, sender_stop(&sender, rest[1] == '1', frame));
    }
}

int main(void) {
    char *line = NULL;
    size_t room = 0;
    while (getline(&line, &room, stdin) > 0) {
        obey(line);
        printf(". %u %" PRIu32 " %" PRIu32 " %" PRIu32 " %u %s\n", sender.state, sender.given, sender.sink.made,
               sender.session, (unsigned)taken, sender_why(&sender));
        fflush(stdout);
    }
    free(line);
    return 0;
}
