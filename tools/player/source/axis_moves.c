#define _GNU_SOURCE
#include "axis_moves.h"

#include "engine.h"
#include "motors.h"
#include "waits.h"

/* A travel, and how far it is. */
struct course {
    const struct travel *travel;
    struct line pulse;
    int64_t left; /* pulses that aren't known yet */
    bool goes_on;
};

static enum taken next(struct engine *engine, struct ahead *ahead) {
    struct course *course = engine->context;
    if (course->left == 0) {
        return NO_MORE_COME;
    }
    course->left--;
    ahead->move = (struct move){true, course->pulse, engine->place.lines, engine->place.bytes, false};
    ahead->size = 0;
    return TAKEN;
}

/* An input may halt a sink by itself. */
static bool is_over(struct engine *engine) {
    struct course *course = engine->context;
    int64_t touched[3];
    course->goes_on = course->goes_on && course->travel->goes_on(engine->play, course->travel->context);
    return engine->play->motors->are_touched(touched);
}

static uint64_t wanted(struct engine *engine) {
    const struct course *course = engine->context;
    return course->goes_on ? UINT64_MAX : 0;
}

/* It is at rest once the motors have made all. */
static enum end await(struct engine *engine, bool *is_at_rest) {
    const struct motors *motors = engine->play->motors;
    *is_at_rest = !motors->are_moving();
    if (!*is_at_rest) {
        motors->doze();
    }
    return CONTINUES;
}

static const struct move_source axis_moves = {.next = next, .is_over = is_over, .wanted = wanted, .await = await};

enum end travel(struct play *play, const struct travel *travel) {
    struct player *player = play->player;
    struct course course = {travel, {.kind = 'P', .us = player_step_us(player, travel->axis, travel->nm_per_min)},
                            travel->pulses, true};
    course.pulse.step[travel->axis] = travel->sign;
    schedule_pause(&play->schedule);
    player_lock(player);
    manual_leave_path(player);
    player_unlock(player);
    engine_begin(&engine_beside_out, &axis_moves, play, &course);
    enum end end = engine_run(&engine_beside_out);
    play->is_moving = play->is_moving && end != CONTINUES;
    return end == CONTINUES && heed_stops(play) ? STOPPED : end; /* looks at the inputs where it stands */
}
