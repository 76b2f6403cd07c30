#define _GNU_SOURCE
#include "play.h"

#include <inttypes.h>
#include <stdio.h>
#include <string.h>

#include "inputs.h"
#include "motors.h"
#include "off.h"
#include "out_lines.h"
#include "waits.h"

void play_begin(struct play *play) {
    play->stops_at = play->options->machine != NULL ? inputs_stops(&play->machine.inputs) : 0;
    out_lines_begin(play);
}

/* Whether it goes on where it stopped: once an alarm is over, or with another session. */
static bool goes_on_after(struct play *play) {
    if (alarm_stands(play->player)) {
        return alarm_wait(play);
    }
    return anew_is_wanted(play->player) ? anew_begin(play) : await_record(play);
}

/* Carries out lines, and goes on once an alarm is over, and where another session follows. */
static enum end carry_out_all(struct play *play) {
    enum end end = STOPPED;
    bool goes_on = !alarm_stands(play->player) || alarm_wait(play);
    while (goes_on) {
        play_begin(play);
        end = carry_out_lines(play);
        goes_on = end == STOPPED && goes_on_after(play);
    }
    return end;
}

int play_out(struct play *play) {
    enum end end = carry_out_all(play);
    bool was_on = outputs_are_on(&play->player->outputs);
    if (end == CONTINUES && !was_on) {
        return 0;
    }
    if (end == CONTINUES && !play->options->is_untimed && !wait_until_due(play)) {
        end = STOPPED; /* in the time of the last line */
    }
    if (!play->motors->switch_off(play)) {
        return 2;
    }
    if (end == CONTINUES) {
        say("%s: ended with spindle or coolant on; spindle and coolant off", play->options->out);
        return 0;
    }
    if (end == FAILED) {
        say("player: %s", play->why.text);
        return 2;
    }
    bool is_at_line = play->why.text[0] == ':';
    say("%s%s%s spindle and coolant off", play->options->out, is_at_line ? "" : ": ", play->why.text);
    return source_error() != 0 ? 2 : 1;
}
