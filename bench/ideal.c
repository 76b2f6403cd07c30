/* The best times along polylines that stand for smooth paths, for bench/haste.py: each axis keeps to its acceleration
 * and its rate, the path to its feed. The words are the acceleration and the rate of all axes, in mm and seconds, and
 * the slack in mm. It reads points "x y z feed corner", a path's end is a line "-"; for each path it prints the seconds
 * from rest to rest. At a corner an axis may change its rate at once by as much as it would within the slack,
 * sqrt(8 a slack); elsewhere the path bends from point to point. */
#include <math.h>
#include <stdbool.h>
#include <stdio.h>
#include <stdlib.h>

struct point {
    double at[3];
    double feed; /* of the line up to it */
    int is_corner;
    double length; /* up to the next .. */
    double along[3]; /* .. and to where */
    double bend[3];
    double most; /* squares of rates */
    double plan;
};

/* Accelerations along the path that all axes can do. */
struct range {
    double least;
    double most;
};

static double accel, rate, slack;
static struct point *points;
static size_t count, room;

static struct range range_at(const struct point *point, double square) {
    struct range range = {-INFINITY, INFINITY};
    for (int axis = 0; axis < 3; axis++) {
        double turned = point->bend[axis] * square;
        double slope = point->along[axis];
        if (fabs(slope) < 1e-9) {
            range.most = fabs(turned) > accel ? -INFINITY : range.most;
        } else {
            double one = (-accel - turned) / slope;
            double other = (accel - turned) / slope;
            range.least = fmax(range.least, fmin(one, other));
            range.most = fmin(range.most, fmax(one, other));
        }
    }
    return range;
}

static bool may_be(const struct point *point, double square, double after) {
    struct range range = range_at(point, square);
    return range.least <= range.most && square + 2 * range.least * point->length <= after;
}

/* The greatest square from which the next one is reached. */
static double greatest(const struct point *point, double after) {
    double low = 0;
    double high = point->most;
    if (may_be(point, high, after)) {
        return high;
    }
    for (int half = 0; half < 50; half++) {
        double middle = (low + high) / 2;
        if (may_be(point, middle, after)) {
            low = middle;
        } else {
            high = middle;
        }
    }
    return low;
}

static double square_of(double value) {
    return value * value;
}

/* Lengths and directions, where each line begins. */
static void measure(void) {
    for (size_t at = 0; at + 1 < count; at++) {
        struct point *point = &points[at];
        double sum = 0;
        for (int axis = 0; axis < 3; axis++) {
            point->along[axis] = points[at + 1].at[axis] - point->at[axis];
            sum += square_of(point->along[axis]);
        }
        point->length = sqrt(sum);
        for (int axis = 0; axis < 3; axis++) {
            point->along[axis] /= point->length;
        }
    }
}

/* What an axis allows where the path goes from one line to the next. */
static void turn_axis(struct point *point, const struct point *before, int axis) {
    double turn = point->along[axis] - before->along[axis];
    if (point->is_corner) {
        if (fabs(turn) > 1e-9) {
            point->most = fmin(point->most, 8 * accel * slack / square_of(turn));
        }
    } else {
        point->bend[axis] = turn / ((point->length + before->length) / 2);
    }
}

static void limit(void) {
    for (size_t at = 0; at + 1 < count; at++) {
        struct point *point = &points[at];
        double feed = at > 0 ? fmin(point->feed, points[at + 1].feed) : points[at + 1].feed;
        point->most = square_of(feed);
        for (int axis = 0; axis < 3; axis++) {
            point->bend[axis] = 0;
            point->most = fmin(point->most, square_of(rate / fabs(point->along[axis])));
            if (at > 0) {
                turn_axis(point, point - 1, axis);
            }
        }
    }
}

static double seconds(void) {
    double sum = 0;
    double square = 0;
    measure();
    limit();
    points[count - 1].plan = 0;
    for (size_t at = count - 1; at-- > 0;) {
        points[at].plan = greatest(&points[at], points[at + 1].plan);
    }
    for (size_t at = 0; at + 1 < count; at++) {
        struct range range = range_at(&points[at], square);
        double next = fmax(0, fmin(points[at + 1].plan, square + 2 * fmax(range.most, 0) * points[at].length));
        sum += 2 * points[at].length / fmax(sqrt(square) + sqrt(next), 1e-9);
        square = next;
    }
    return sum;
}

static void add(struct point point) {
    if (count + 1 > room) {
        room = room * 2 + 4096;
        points = realloc(points, room * sizeof *points);
    }
    if (points == NULL) {
        exit(2);
    }
    points[count++] = point;
}

int main(int words, char **given) {
    char text[256];
    if (words != 4) {
        return 2;
    }
    accel = strtod(given[1], NULL);
    rate = strtod(given[2], NULL);
    slack = strtod(given[3], NULL);
    while (fgets(text, sizeof text, stdin) != NULL) {
        struct point point = {0};
        double *at = point.at;
        if (sscanf(text, "%lf %lf %lf %lf %d", &at[0], &at[1], &at[2], &point.feed, &point.is_corner) == 5) {
            add(point);
        } else {
            printf("%.6f\n", seconds());
            count = 0;
        }
    }
    return 0;
}
