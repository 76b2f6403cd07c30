/* The motor is a usual NEMA 23 of 1.26 N m, 200 full steps a turn and 300 g cm2, in eighths of a full step. Its torque
 * goes by the sine of the lag, with its greatest at one full step; at two it is 0, and beyond it pulls to the next of
 * its places, four full steps away. So a rotor that lags by more than two full steps has lost four: the usual bound.
 * The torque falls with speed as published curves do, flat at first and then as one by the speed, since the supply's
 * voltage drives less and less current through the winding: with 36 V, 2.8 A and 2.5 mH that begins at V / 50 L I, 103
 * radians a second; here at 63 (600 turns a minute), as the motor's own voltage takes a part. What turns otherwise than
 * the field is damped by the currents that it makes: by a tenth of what lets it swing no more, as is usual.
 *
 * It turns a screw of 5 mm a turn, 25 mm thick and 800 mm long, 2.4e-4 kg m2, with a table and a workpiece of 60 kg,
 * that is 3.8e-5, and a coupling of 1e-5. Screw, guides and seals take 0.1 N m, and 1 mN m for each radian a second. */
#include "rotor.h"

#include <math.h>

static const double STEP_S = 10e-6; /* of the simulation */
static const double TORQUE = 1.26;
static const double INERTIA = 3.0e-5 + 2.4e-4 + 3.8e-5 + 1e-5;
static const double CORNER = 63; /* radians a second */
static const double FRICTION = 0.1;
static const double VISCOUS = 1e-3;
static const double SWING = 0.1; /* of the damping that lets it swing no more */
static const double FULL_STEP = 3.141592653589793 / 100; /* in radians */
static const double BASIN = 2 * 3.141592653589793 / 100; /* to each side of its place */
static const double QUIET_S = 0.05; /* after which what stands is taken to stay */

enum { MICROSTEPS = 8 };

/* N m for each radian a second between rotor and field. */
static double field_damping(void) {
    return SWING * 2 * sqrt(50 * TORQUE * INERTIA);
}

/* A step of the simulation. Friction stops a rotor, and turns none round. */
static void turn(struct rotor *rotor) {
    double relative = rotor->speed / CORNER;
    double pulled = TORQUE / sqrt(1 + relative * relative) * sin(50 * rotor->lag);
    double damped = (VISCOUS + field_damping()) * rotor->speed;
    double speed = rotor->speed + (pulled - damped) / INERTIA * STEP_S;
    double slowed = fabs(speed) - FRICTION / INERTIA * STEP_S;
    rotor->speed = slowed > 0 ? copysign(slowed, speed) : 0;
    rotor->lag -= rotor->speed * STEP_S;
    rotor->most_lag = fmax(rotor->most_lag, fabs(rotor->lag));
    if (fabs(rotor->lag) > BASIN) {
        rotor->lag -= copysign(2 * BASIN, rotor->lag);
        rotor->lost += 4 * MICROSTEPS;
    }
}

/* Up to a moment, or until it stands. */
static void turn_until(struct rotor *rotor, double *now, double moment) {
    double quiet = *now + QUIET_S;
    while (*now < moment && (rotor->speed != 0 || *now < quiet)) {
        turn(rotor);
        *now += STEP_S;
    }
    *now = fmax(*now, moment);
}

struct rotor follow(const struct timed_line *lines, int axis) {
    struct rotor rotor = {0};
    double now = 0;
    for (size_t at = 0; lines[at].kind != '\0'; at++) {
        int step = lines[at].kind == 'P' ? lines[at].step[axis] : 0;
        if (step != 0) {
            turn_until(&rotor, &now, (double)lines[at].due_ns / 1e9);
            rotor.lag += step * FULL_STEP / MICROSTEPS;
            rotor.speed += field_damping() / INERTIA * step * FULL_STEP / MICROSTEPS;
        }
    }
    turn_until(&rotor, &now, now + 1);
    rotor.most_lag /= FULL_STEP;
    return rotor;
}
