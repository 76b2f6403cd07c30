#include "homing.h"

#include <inttypes.h>
#include <stdio.h>
#include <string.h>

#include "axis_moves.h"
#include "home.h"
#include "inputs.h"
#include "manual_moves.h"
#include "motors.h"

enum { NM_PER_UM = 1000, NM_PER_MM = 1000000, BACKS_OFF = 10 /* times the pull-off, until the switch is off */ };

static const char axis_names[] = "XYZ";

/* An axis on its way to a switch, or away from it. */
struct course {
    struct cause *how;
    int input;
    bool waits_on;    /* it ends once the switch is on; else once it is off */
    bool is_met;
    int axis;
    int64_t at;       /* where it was met, in steps */
    uint32_t excused; /* limits that were on as the homing began, and weren't off since: they don't stop it */
};

/* What stops the motors at once while an axis is homed: all but its own switch, and limits that are left. */
static void heed(struct play *play, struct course *course) {
    const struct inputs *inputs = &play->machine.inputs;
    course->excused &= atomic_load(&play->player->on);
    uint32_t limits = inputs_limits(inputs) & ~course->excused & ~input_bit(course->input);
    play->stops_at = input_bit(inputs->emergency_stop) | limits;
}

static bool is_on(const struct play *play, const struct course *course) {
    return input_is_on(atomic_load(&play->player->on), course->input);
}

static bool goes_on(struct play *play, void *context) {
    struct course *course = context;
    heed(play, course);
    if (!manual_goes_on(play, course->how)) {
        return false;
    }
    if (is_on(play, course) != course->waits_on) {
        return true;
    }
    course->is_met = true;
    course->at = axis_place(play, course->axis);
    return false;
}

/* Goes on, whatever the switch says. */
static bool goes_on_blindly(struct play *play, void *context) {
    struct course *course = context;
    heed(play, course);
    return manual_goes_on(play, course->how);
}

/* A limit that lies ahead is on, and isn't the switch itself. */
static bool is_at_limit(const struct play *play, const struct course *course, int sign) {
    const struct inputs *inputs = &play->machine.inputs;
    int limit = inputs->limits[sign > 0 ? HIGH_END : LOW_END][course->axis];
    return limit != course->input && input_is_on(atomic_load(&play->player->on), limit);
}

/* Goes so many steps; CONTINUES with `how` set where it may not, or came to rest before. */
static enum end go(struct play *play, struct course *course, int sign, int64_t steps, int64_t mm_per_min,
                   bool is_blind) {
    struct travel way = {course->axis, sign, steps, mm_per_min * NM_PER_MM, is_blind ? goes_on_blindly : goes_on,
                         course};
    if (is_at_limit(play, course, sign)) {
        because(course->how, "%c: the limit %c%c is on", axis_names[course->axis], axis_names[course->axis],
                sign > 0 ? '+' : '-');
        return CONTINUES;
    }
    heed(play, course);
    course->is_met = false;
    uint32_t halts = is_blind ? 0 : input_bit(course->input);
    if (!play->motors->begin_anew(play, play->stops_at, halts, course->waits_on ? 0 : halts)) {
        return STOPPED;
    }
    enum end end = travel(play, &way);
    int64_t touched[3];
    if (!is_blind && play->motors->are_touched(touched)) {
        course->is_met = true;
        course->at = touched[course->axis];
    }
    return end;
}

static bool is_well(const struct course *course) {
    return course->how->text[0] == '\0';
}

static int64_t steps_of(const struct play *play, int axis, int64_t nm) {
    int64_t steps = in_steps(nm, play->player->step_nm[axis]);
    return steps > 0 ? steps : 1;
}

static int64_t pull_off_of(const struct play *play, int axis) {
    return steps_of(play, axis, play->machine.home.pull_off_um[axis] * NM_PER_UM);
}

/* To the switch, in so many steps. */
static enum end go_to_switch(struct play *play, struct course *course, int64_t steps, int64_t mm_per_min) {
    const struct home *home = &play->machine.home;
    course->waits_on = true;
    enum end end = go(play, course, (int)home->direction[course->axis], steps, mm_per_min, false);
    if (end == CONTINUES && is_well(course) && !course->is_met) {
        int64_t nm = steps * play->player->step_nm[course->axis];
        because(course->how, "%c: its switch isn't on within %" PRId64 ".%03" PRId64 " mm", axis_names[course->axis],
                nm / NM_PER_MM, nm % NM_PER_MM / 1000);
    }
    return end;
}

/* Away from it until it is off, and on to as far as the pull-off from there, or from `from`, if that isn't NULL. */
static enum end go_away(struct play *play, struct course *course, const int64_t *from) {
    const struct home *home = &play->machine.home;
    int axis = course->axis;
    int away = -(int)home->direction[axis];
    int64_t pull_off = pull_off_of(play, axis);
    course->waits_on = false;
    enum end end = go(play, course, away, BACKS_OFF * pull_off, home->fast_mm_min[axis], false);
    if (end != CONTINUES || !is_well(course)) {
        return end;
    }
    bool was_off = course->is_met;
    int64_t goal = (from != NULL ? *from : course->at) + away * pull_off;
    int64_t left = (goal - axis_place(play, axis)) * away;
    if (was_off && left != 0) {
        end = go(play, course, left > 0 ? away : -away, left > 0 ? left : -left, home->fast_mm_min[axis], true);
    }
    if (end == CONTINUES && is_well(course) && (!was_off || is_on(play, course))) {
        because(course->how, "%c: its switch stays on", axis_names[axis]);
    }
    return end;
}

/* Two slow touches, each from a pull-off away. */
static enum end touch_twice(struct play *play, struct course *course, int64_t fast_at, int64_t touches[2]) {
    const struct home *home = &play->machine.home;
    int axis = course->axis;
    enum end end = CONTINUES;
    int64_t last = fast_at;
    for (int touch = 0; touch < 2 && end == CONTINUES && is_well(course); touch++) {
        int64_t back = (last - axis_place(play, axis)) * home->direction[axis];
        int64_t steps = (back > 0 ? back : 0) + pull_off_of(play, axis);
        end = go_to_switch(play, course, steps, home->slow_mm_min[axis]);
        touches[touch] = last = course->at;
        if (end == CONTINUES && is_well(course)) {
            end = go_away(play, course, touch == 1 ? &touches[1] : NULL);
        }
    }
    return end;
}

/* Whether the touches agree; else both are said. */
static bool do_agree(const struct play *play, struct course *course, const int64_t touches[2]) {
    int axis = course->axis;
    int64_t step_nm = play->player->step_nm[axis];
    int64_t apart = (touches[0] > touches[1] ? touches[0] - touches[1] : touches[1] - touches[0]) * step_nm;
    char both[PLACE_ROOM];
    const int64_t nm[3] = {touches[0] * step_nm, touches[1] * step_nm};
    if (apart <= play->machine.home.agree_um * NM_PER_UM) {
        return true;
    }
    place_print(both, sizeof both, nm);
    char *second = strchr(both, ' ');
    *second = '\0';
    second++;
    return because(course->how, "%c: two touches differ: %s and %.*s", axis_names[axis], both,
                   (int)strcspn(second, " "), second);
}

/* The axis stands there, by its switch. */
static void set_place(struct play *play, int axis) {
    struct player *player = play->player;
    player_lock(player);
    player->steps[axis] = in_steps(play->machine.home.at_um[axis] * NM_PER_UM, player->step_nm[axis]);
    player->homed |= 1U << axis;
    player_unlock(player);
}

static enum end home_axis(struct play *play, struct course *course) {
    const struct home *home = &play->machine.home;
    int axis = course->axis;
    int64_t touches[2] = {0, 0};
    enum end end = CONTINUES;
    if (is_on(play, course)) {
        end = go_away(play, course, NULL);
    }
    if (end == CONTINUES && is_well(course)) {
        end = go_to_switch(play, course, steps_of(play, axis, home->way_mm[axis] * NM_PER_MM),
                           home->fast_mm_min[axis]);
    }
    int64_t fast_at = course->at;
    if (end == CONTINUES && is_well(course)) {
        end = go_away(play, course, NULL);
    }
    if (end == CONTINUES && is_well(course)) {
        end = touch_twice(play, course, fast_at, touches);
    }
    if (end == CONTINUES && is_well(course) && do_agree(play, course, touches)) {
        set_place(play, axis);
    }
    return end;
}

/* The axis that comes at this place of the order, -1 for none. */
static int axis_of(const struct home *home, unsigned axes, int place) {
    int axis = 2;
    while (axis >= 0 && !(home->order[axis] == place && (axes >> axis & 1) != 0)) {
        axis--;
    }
    return axis;
}

/* Ends an alarm, once all axes are homed. Where one can't be, a person tells where it stands. */
static void end_alarm(struct player *player) {
    player_lock(player);
    if (player->homed == ALL_AXES) {
        alarm_end(player);
    }
    player_unlock(player);
}

enum end home_axes_now(struct play *play, unsigned axes, struct cause *how) {
    const struct home *home = &play->machine.home;
    struct player *player = play->player;
    struct course course = {.how = how, .excused = inputs_limits(&play->machine.inputs)};
    enum end end = CONTINUES;
    unsigned wanted = axes != 0 ? axes : home_axes(home);
    how->text[0] = '\0';
    for (int place = 1; place <= 3 && end == CONTINUES && is_well(&course); place++) {
        course.axis = axis_of(home, wanted, place);
        if (course.axis >= 0) {
            player_lock(player);
            player->manual.homes = course.axis;
            player->homed &= ~(1U << course.axis);
            player_unlock(player);
            course.input = (int)home->input[course.axis];
            end = home_axis(play, &course);
        }
    }
    play->stops_at = inputs_stops(&play->machine.inputs);
    if (end == CONTINUES && !play->motors->begin_anew(play, play->stops_at, 0, 0)) {
        return STOPPED;
    }
    if (end == CONTINUES && is_well(&course)) {
        end_alarm(player);
        because(how, "done");
    }
    return end;
}
