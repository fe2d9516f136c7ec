/* A car drives a quarter circle, a half circle and a nearly straight road, from four headings: where it ends, and where each
 * edition of the turn rule has it. Prints the table of docs/TURN.md, which links/page holds to it. Exits with 1 if a prediction
 * is refused, or if a filter ends with another velocity than the car. */
#include <stdio.h>

#include "track.h"

#define PI 3.14159265358979323846
#define SPEED 20.0

/* In so many parts of a step the car's velocity is taken as constant. */
enum { PARTS = 20 };

typedef struct {
    double x, y;
} point;

static const struct {
    const char *name;
    double wz, dt;
    int steps;
} drives[] = {
    {"quarter circle", PI / 10, 0.05, 100},
    {"half circle", PI / 10, 0.05, 200},
    {"nearly straight", 0.001, 0.005, 1000},
};

static const struct {
    const char *name;
    double angle;
} headings[] = {{"0", 0.0}, {"0.7", 0.7}, {"PI/2", PI / 2}, {"3", 3.0}};

static int wrong = 0;

/* The car's velocity on a heading: cosine and sine by their series. */
static point velocity(double heading) {
    point term = {SPEED, 0.0}, sum = term;
    for (int n = 1; n < 50; n++) {
        const point next = {-term.y * heading / n, term.x * heading / n};
        term = next;
        sum.x += term.x;
        sum.y += term.y;
    }
    return sum;
}

static double distance(point a, point b) {
    return track_sqrt((float)((a.x - b.x) * (a.x - b.x) + (a.y - b.y) * (a.y - b.y))).value;
}

/* Where a filter has a car that begins at (0, 0), by an edition. */
static point predicted(track_edition edition, double heading, double wz, double dt, int steps) {
    point now = velocity(heading), held, at;
    track_filter filter;
    track_new(&filter);
    filter.numbers.x[2] = (float)heading;
    filter.numbers.x[3] = (float)now.x;
    filter.numbers.x[4] = (float)now.y;
    for (int step = 1; step <= steps; step++) {
        const point next = velocity(heading + wz * dt * step);
        const float ax = (float)((next.x - now.x) / dt), ay = (float)((next.y - now.y) / dt);
        const track_number number = track_predict(&filter, edition, ax, ay, (float)wz, (float)dt).number;
        if (number != TRACK_ANSWERED) {
            printf("edition %u, prediction %d: %s\n", (unsigned)edition, step, track_sentence(number));
            wrong = 1;
            break;
        }
        now = next;
    }
    held.x = filter.numbers.x[3];
    held.y = filter.numbers.x[4];
    if (distance(held, now) > 0.001) {
        printf("edition %u ends with the velocity (%.4f, %.4f), and the car with (%.4f, %.4f)\n", (unsigned)edition, held.x,
               held.y, now.x, now.y);
        wrong = 1;
    }
    at.x = filter.numbers.x[0];
    at.y = filter.numbers.x[1];
    return at;
}

/* Where it is: the sum of its velocities, each in the middle of a part, by their time. */
static point driven(double heading, double wz, double dt, int steps) {
    point at = {0.0, 0.0};
    for (int part = 0; part < steps * PARTS; part++) {
        const point now = velocity(heading + wz * dt * (part + 0.5) / PARTS);
        at.x += now.x * dt / PARTS;
        at.y += now.y * dt / PARTS;
    }
    return at;
}

/* A number of the table behind some text, in metres to the millimetre; no zero has a sign. */
static void put(const char *text, double metres) {
    printf("%s%.3f", text, -0.0005 < metres && metres < 0.0005 ? 0.0 : metres);
}

static void put_point(point at) {
    put(" | ", at.x);
    put(", ", at.y);
}

int main(void) {
    printf("| Drive | Heading | The car | Edition 1 | off by | Edition 2 | off by |\n|---|---|---|---|---|---|---|\n");
    for (size_t i = 0; i < sizeof drives / sizeof *drives; i++) {
        const double wz = drives[i].wz, dt = drives[i].dt;
        for (size_t j = 0; j < sizeof headings / sizeof *headings; j++) {
            const double heading = headings[j].angle;
            const point car = driven(heading, wz, dt, drives[i].steps);
            const point first = predicted(TRACK_EDITION_FIRST, heading, wz, dt, drives[i].steps);
            const point second = predicted(TRACK_EDITION_SECOND, heading, wz, dt, drives[i].steps);
            printf("| %s | %s", drives[i].name, headings[j].name);
            put_point(car);
            put_point(first);
            put(" | ", distance(first, car));
            put_point(second);
            put(" | ", distance(second, car));
            printf(" |\n");
        }
    }
    return wrong;
}
