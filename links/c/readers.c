/* Calls each reader on a record in memory that cannot be written, and merges a summary that lies there: a call that wrote a
 * word would end the program. `links/names --readers` makes the calls from docs/boundary.txt. Exits with 1 if one of them is
 * refused. */
#include <stdio.h>

#include "track.h"

/* Zeros are sound but for the filter's three r. */
static const track_filter ekf = {{{0.0f}, {0.0f}, {0.0f, 0.0f, 0.0f, 1.0f, 1.0f, 1.0f, 0.0f}, 0.0f, 0.0f, 0.0f, 0.0f},
                                 {0, 0, 0, 0, 0, 0, 0, 0, 0, 0}};
static const track_orientation_corrector orientation;
static const track_gps_acceleration gps;
static const track_tilt_estimator tilt;
static const track_yaw_rate_calibrator yawrate;
static const track_heading_aligner aligner;
static const uint32_t other[129];

static int refused = 0;

#define READ(call)                                             \
    do {                                                       \
        const track_number number = (call).number;             \
        if (number != TRACK_ANSWERED) {                        \
            printf("%s gives %u\n", #call, (unsigned)number);  \
            refused = 1;                                       \
        }                                                      \
    } while (0)

int main(void) {
    uint32_t summary[129] = {0};
    track_summary_merge(summary, other);
#include "readers.inc"
    return refused;
}
