/* What track_float_environment_ok says of the float environments of x86-64, by the word MXCSR, and what a root is in one that
 * takes subnormal numbers as zeros (docs/BOUNDARY.md). Exits with 1 if one of them comes out otherwise. */
#include <stdio.h>
#include <string.h>

#include "track.h"

static int wrong = 0;

static void expect(const char *what, int holds) {
    printf("%-64s %s\n", what, holds ? "so" : "NOT SO");
    wrong += !holds;
}

enum { FIRST = 0x1F80, FAST_MATH = 0x9FC0 };

static const struct {
    const char *name;
    unsigned word;
    int ok;
} environments[] = {
    {"the one that a program starts with is as the archive needs it", FIRST, 1},
    {"with subnormal answers flushed to zero, it is not", 0x9F80, 0},
    {"with subnormal arguments taken as zeros, it is not", 0x1FC0, 0},
    {"with both, as -ffast-math has them, it is not", FAST_MATH, 0},
    {"rounding down, it is not", 0x3F80, 0},
    {"rounding up, it is not", 0x5F80, 0},
    {"rounding toward zero, it is not", 0x7F80, 0},
};

/* Whether the root of 00012345 is answered with some bits, in an environment. */
static int root_is(unsigned word, uint32_t wanted) {
    const uint32_t bits = 0x00012345;
    uint32_t given;
    float number;
    track_value root;
    memcpy(&number, &bits, sizeof number);
    __builtin_ia32_ldmxcsr(word);
    root = track_sqrt(number);
    __builtin_ia32_ldmxcsr(FIRST);
    memcpy(&given, &root.value, sizeof given);
    return root.number == TRACK_ANSWERED && given == wanted;
}

int main(void) {
    for (size_t i = 0; i < sizeof environments / sizeof *environments; i++) {
        int ok;
        __builtin_ia32_ldmxcsr(environments[i].word);
        ok = track_float_environment_ok();
        __builtin_ia32_ldmxcsr(FIRST);
        expect(environments[i].name, ok == environments[i].ok);
    }
    expect("the root of 00012345 is the nearest float, 1E411636", root_is(FIRST, 0x1E411636));
    expect("as -ffast-math has it, the answer is 00012345", root_is(FAST_MATH, 0x00012345));
    return wrong != 0;
}
