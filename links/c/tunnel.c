/* A car that leaves a tunnel so many metres from where the filter has it, and stays so far off: which fix is taken. Prints the
 * table of docs/TUNNEL.md, which links/page holds to it. Exits with 1 if a call is refused, or if a car 40 m off, whose position
 * is not locked between, has another fix taken than the ninth. */
#include <stdio.h>

#include "track.h"

static const float offsets[] = {40.0f, 61.9f, 62.0f, 100.0f};

/* What happens between two fixes: so many predictions of so many seconds, or the position is locked. */
static const struct {
    const char *name;
    int predictions;
    float dt;
    int locks;
} between[] = {
    {"nothing", 0, 0.0f, 0},
    {"a prediction of 0.5 s", 1, 0.5f, 0},
    {"five of 0.5 s", 5, 0.5f, 0},
    {"ten of 0.1 s", 10, 0.1f, 0},
    {"twenty of 0.005 s", 20, 0.005f, 0},
    {"`lock_position`", 0, 0.0f, 1},
};

enum { CASES = sizeof between / sizeof *between };

static int wrong = 0;

static void expect_answered(track_number number) {
    if (number == TRACK_ANSWERED) return;
    printf("refused: %s\n", track_sentence(number));
    wrong = 1;
}

/* Prints which fix is taken, with its gate value. Where the variances are after an eighth rejection what they were after the one
 * before, and the car is where it was, all that follows is as it was, and no fix ever will be. */
static void run(float offset, size_t how) {
    track_filter filter;
    float eighth = 0.0f;
    track_new(&filter);
    expect_answered(track_lock_position(&filter).number);
    for (unsigned fix = 1; !wrong; fix++) {
        const track_outcome outcome = track_update_position(&filter, offset, 0.0f);
        expect_answered(outcome.number);
        if (outcome.verdict == TRACK_ACCEPTED) {
            printf(" %u, %.2f |", fix, outcome.gate_value);
            if (offset == 40.0f && fix != 9) wrong = 1;
            return;
        }
        if (between[how].locks) expect_answered(track_lock_position(&filter).number);
        for (int i = 0; i < between[how].predictions; i++)
            expect_answered(track_predict(&filter, TRACK_EDITION_FIRST, 0.0f, 0.0f, 0.0f, between[how].dt).number);
        if (filter.counts.rejection_run == 0) {
            if (filter.numbers.p[0] == eighth) {
                printf(" never |");
                if (offset == 40.0f && !between[how].locks) wrong = 1;
                return;
            }
            eighth = filter.numbers.p[0];
        }
    }
}

int main(void) {
    printf("| Between two fixes | 40 m off | 61.9 m | 62 m | 100 m |\n|---|---|---|---|---|\n");
    for (size_t how = 0; how < CASES; how++) {
        printf("| %s |", between[how].name);
        for (size_t i = 0; i < sizeof offsets / sizeof *offsets; i++) run(offsets[i], how);
        printf("\n");
    }
    return wrong;
}
