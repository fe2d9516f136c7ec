/* The estimator for C99 and C++11, on x86-64: a named function for each operation of the proved archive (docs/BOUNDARY.md).
 * Nothing is allocated: every filter, low-pass and learner lies in the caller's memory. A refused call changes none of it. What
 * stands between `table` and `end` is made from docs/boundary.txt by links/names. */
#ifndef TRACK_H
#define TRACK_H

#include <float.h>
#include <stddef.h>
#include <stdint.h>

/* ---- What the archive exports ----
 * Every function with a record is a track_component. The named functions below reach these; of the log's and the summary's:
 * - track_list writes the listing of a log to the front of `out` and gives its length. Below the room that it asks for, it
 *   writes nothing and gives that room: an answer above `out_length` says so. See track_list_room.
 * - track_replay replays a log and writes the filter at its end. It gives 0, or the number of its stop; then the filter is the
 *   one before the stop. Where no configuration was taken, it writes nothing. See track_replay_log.
 * - track_replay_record replays one record of a log. See track_replay_next.
 * - track_append appends one record to a log. See track_write_record.
 * - track_summary_add counts one verdict in a summary. See track_summary_add_outcome.
 * - track_summary_merge adds the counts of another summary. See track_summary_merge_with.
 * - track_summarize writes the summary of a log and gives 0, or the number of its stop. See track_summarize_log. */
#ifdef __cplusplus
extern "C" {
#endif

typedef uint32_t track_component(uint32_t operation, float *numbers, uint32_t *counts, const float *arguments,
                                 const uint32_t *words, float *values, uint32_t *shown);
/* table: exports */
extern track_component track_ekf, track_lowpass, track_orientation, track_gps, track_tilt, track_yawrate, track_aligner;
uint32_t track_float(uint32_t operation, float argument, float answer[1]);
uint32_t track_trig(uint32_t operation, float a, float b, float answer[1]);
uint32_t track_blend(float imu, uint32_t has_gps, float gps, float confidence, const float weights[3], float values[2]);
uint64_t track_list(const uint8_t *log, uint64_t log_length, uint8_t *out, uint64_t out_length);
uint32_t track_replay(const uint8_t *log, uint64_t log_length, float numbers[25], uint32_t counts[10]);
uint32_t track_replay_record(const uint8_t *bytes, uint64_t bytes_length, uint32_t replay[2], float numbers[25],
                             uint32_t counts[10], float values[2], uint32_t shown[4]);
uint32_t track_append(uint8_t *buf, uint64_t buf_length, uint64_t used[1], uint32_t tag, const uint8_t *payload,
                      uint64_t payload_length);
uint32_t track_summary_add(uint32_t summary[129], uint32_t verdict, float value);
void track_summary_merge(uint32_t summary[129], const uint32_t other[129]);
uint32_t track_summarize(const uint8_t *log, uint64_t log_length, uint32_t summary[129]);
/* end */

#ifdef __cplusplus
}
#endif

/* ---- What a caller keeps ----
 * - No pointer is null, not even where nothing is read or written, and each is aligned for its type. An array of fixed length
 *   is there whole (docs/BOUNDARY.md has the lengths), and a length that is given is true.
 * - The arrays of one call do not overlap. The functions below copy their arguments first and answer by value, so that
 *   `track_lowpass_process(&filter, filter.y1)` keeps this. What is lent by a pointer with a length is not copied: a payload
 *   that is written lies apart from the writer and its buffer.
 * - Floats round to nearest, subnormal numbers are kept (track_float_environment_ok), and float exceptions do not trap.
 * - Two calls at a time are on different records, or both are readers; a writer with its buffer counts as a record, and so does
 *   a summary. The archive keeps nothing between calls, so they need no lock. */

/* Whether this thread's floats are as the archive needs them; a program linked with -ffast-math starts otherwise. Of two floats
 * as near, the even one is taken: down to 1, up to 1 + 2^-22. A subnormal number, 2^-127, is kept as an answer and then as an
 * argument: it is seen times 2^127, since a comparison might take it as zero too. */
static inline int track_float_environment_ok(void) {
    const volatile float one = 1.0f, half_step = FLT_EPSILON / 2, normal = FLT_MIN, half = 0.5f, large = 2 / FLT_MIN;
    const volatile float down = one + half_step, up = one + 3 * half_step, halved = normal * half;
    return down == 1.0f && up == 1.0f + 2 * FLT_EPSILON && halved * large == 1.0f;
}

/* ---- Numbers and answers ---- */

/* Document 01's number: an answer, or why a call was refused. The lowest that applies is given. A number that is not named here
 * is one of a later archive, and is handed on as it is; so with verdicts, with stops and with what a writer gives. */
typedef uint32_t track_number;
enum {
    TRACK_ANSWERED = 0,
    TRACK_NOT_FINITE = 1,
    TRACK_OUT_OF_RANGE = 2,
    TRACK_BAD_PARAMETER = 3,
    TRACK_UNSOUND = 4,
    TRACK_COUNT_AT_END = 5,
    TRACK_WOULD_BE_UNSOUND = 6
};

static inline const char *track_sentence(track_number number) {
    switch (number) {
    case TRACK_ANSWERED: return "answered";
    case TRACK_NOT_FINITE: return "an argument is NaN or infinite";
    case TRACK_OUT_OF_RANGE: return "an argument is outside its range";
    case TRACK_BAD_PARAMETER: return "a configuration number or parameter is not finite or out of range";
    case TRACK_UNSOUND: return "a number of the state is unsound";
    case TRACK_COUNT_AT_END: return "a sample count that would be raised stands at 16,777,216";
    case TRACK_WOULD_BE_UNSOUND: return "a number that would be stored is unsound";
    }
    return "a number that is not known here";
}

typedef uint32_t track_verdict;
enum { TRACK_DONE = 0, TRACK_ACCEPTED = 1, TRACK_REJECTED = 2 };

/* The edition of the turn rule, by request C-16: the first is the Rust's, the second takes the velocity as what it is, one in
 * the earth frame. Any other is refused: by a prediction with TRACK_OUT_OF_RANGE, by a writer with TRACK_WRITE_UNKNOWN. */
typedef uint32_t track_edition;
enum { TRACK_EDITION_FIRST = 1, TRACK_EDITION_SECOND = 2 };

/* A call that changes the filter; the verdict counts if it was answered. */
typedef struct {
    track_number number;
    track_verdict verdict;
    float gate_value; /* the gate value that was compared, where the verdict is accepted or rejected; else 0 */
} track_outcome;

/* What follows the number counts if the call was answered; else it is 0. */
typedef struct {
    track_number number;
    float value;
} track_value;

typedef struct {
    track_number number;
    float x, y;
} track_pair;

/* A value, or nothing: then `some` is 0. */
typedef struct {
    track_number number;
    uint32_t some;
    float value;
} track_option;

typedef struct {
    track_number number;
    uint32_t flag;
} track_flag;

typedef struct {
    track_number number;
    uint32_t accepted, rejected;
} track_stats;

typedef struct {
    track_number number;
    float x, y;
    uint32_t valid;
} track_offsets;

typedef struct {
    track_number number;
    float acceleration, weight;
} track_blended;

/* ---- Wrap, root and trigonometry ---- */

static inline track_value track_float_answer(uint32_t operation, float argument) {
    track_value answer = {TRACK_ANSWERED, 0.0f};
    answer.number = track_float(operation, argument, &answer.value);
    return answer;
}

static inline track_value track_trig_answer(uint32_t operation, float a, float b) {
    track_value answer = {TRACK_ANSWERED, 0.0f};
    answer.number = track_trig(operation, a, b, &answer.value);
    return answer;
}

static inline track_value track_wrap_angle(float angle) { return track_float_answer(0, angle); }
static inline track_value track_sqrt(float number) { return track_float_answer(1, number); }
static inline track_value track_sin(float angle) { return track_trig_answer(0, angle, 0.0f); }
static inline track_value track_cos(float angle) { return track_trig_answer(1, angle, 0.0f); }
static inline track_value track_atan2(float y, float x) { return track_trig_answer(2, y, x); }

/* Read from a table, for a display: within 34 * 2^-24 of the sine and the cosine. Each call copies the table of 4,100
 * bytes to the stack. */
static inline track_value track_table_sin(float angle) { return track_trig_answer(3, angle, 0.0f); }
static inline track_value track_table_cos(float angle) { return track_trig_answer(4, angle, 0.0f); }

/* ---- The one way to a function with a record ---- */

/* What a call is given; what its operation does not have is 0. */
typedef struct {
    float floats[6];
    uint32_t words[4];
} track_arguments;

static const track_arguments track_no_arguments = {{0.0f, 0.0f, 0.0f, 0.0f, 0.0f, 0.0f}, {0, 0, 0, 0}};

/* What a call gives: the number, and of an answer the values and words that it shows; else zeros. */
typedef struct {
    track_number number;
    float values[2];
    uint32_t shown[4];
} track_answer;

/* An answer's kind, in `shown[0]`: 0 to 2 are a verdict. */
enum { TRACK_SHOWN = 3, TRACK_NOTHING = 4 };

/* A reader's record may be const: the archive writes a record only where it answers a call that makes or changes it. */
static inline track_answer track_call(track_component *component, uint32_t operation, const void *numbers, const void *counts,
                                      const track_arguments *given) {
    track_answer answer = {TRACK_ANSWERED, {0.0f, 0.0f}, {0, 0, 0, 0}};
    answer.number = component(operation, (float *)numbers, (uint32_t *)counts, given->floats, given->words, answer.values,
                              answer.shown);
    return answer;
}

#define TRACK_CALL(component, operation, record, given) \
    track_call(track_##component, operation, &(record)->numbers, &(record)->counts, &(given))

/* Nothing that includes this compiles where a record does not lie as the archive takes it: its counts behind its numbers. */
#define TRACK_LAYOUT(record, number_words, count_words)                               \
    typedef char record##_layout[offsetof(record, counts) == 4 * (number_words) &&    \
                                 sizeof(record) == 4 * ((number_words) + (count_words)) ? 1 : -1]

static inline track_outcome track_as_outcome(track_answer given) {
    track_outcome answer = {given.number, given.shown[0], given.values[0]};
    return answer;
}

static inline track_value track_as_value(track_answer given) {
    track_value answer = {given.number, given.values[0]};
    return answer;
}

static inline track_option track_as_option(track_answer given) {
    track_option answer = {given.number, given.shown[0] == TRACK_SHOWN, given.values[0]};
    return answer;
}

static inline track_pair track_as_pair(track_answer given) {
    track_pair answer = {given.number, given.values[0], given.values[1]};
    return answer;
}

static inline track_stats track_as_stats(track_answer given) {
    track_stats answer = {given.number, given.shown[1], given.shown[2]};
    return answer;
}

static inline track_flag track_as_flag(track_answer given) {
    track_flag answer = {given.number, given.shown[1]};
    return answer;
}

static inline track_offsets track_as_offsets(track_answer given) {
    track_offsets answer = {given.number, given.values[0], given.values[1], given.shown[1]};
    return answer;
}

/* ---- The filter ---- */

typedef struct {
    float q_acc, q_gyro, q_bias, r_pos, r_vel, r_yaw, min_speed;
} track_config;

/* x and p: position x and y, yaw, velocity x and y, bias x and y. A flag is true where it is not 0. */
typedef struct {
    struct track_filter_numbers {
        float x[7], p[7];
        track_config config;
        float nis_position_sum, last_gps_x, last_gps_y, last_moving_yaw;
    } numbers;
    struct track_filter_counts {
        uint32_t rejected_position, rejected_velocity, rejected_yaw;
        uint32_t accepted_position, accepted_velocity, accepted_yaw;
        uint32_t nis_position_count, has_last_gps, has_last_moving_yaw;
        uint32_t rejection_run; /* of position */
    } counts;
} track_filter;

/* A fresh filter; a refused making leaves `filter` as it was. */
static inline track_outcome track_with_config(track_filter *filter, track_config config) {
    track_filter made = {{{0.0f}, {0.0f}, config, 0.0f, 0.0f, 0.0f, 0.0f}, {0, 0, 0, 0, 0, 0, 0, 0, 0, 0}};
    const track_answer answer = TRACK_CALL(ekf, 0, &made, track_no_arguments);
    if (answer.number == TRACK_ANSWERED) *filter = made;
    return track_as_outcome(answer);
}

/* `track_new` makes a fresh filter with the Rust's default configuration and is never refused. */
/* table: ekf */
TRACK_LAYOUT(track_filter, 25, 10);
static inline track_outcome track_predict(track_filter *record, track_edition edition, float ax_earth, float ay_earth, float wz,
                                          float dt) {
    const track_arguments given = {{ax_earth, ay_earth, wz, dt}, {edition}};
    return track_as_outcome(TRACK_CALL(ekf, 1, record, given));
}
/* Rejections in a row are counted in rejection_run, and an accepted position sets it to 0. The eighth raises both variances of
 * the position to 100 where they are below, and begins a new run. With a run above 7 the calls of position and predict are
 * refused with 4. */
static inline track_outcome track_update_position(track_filter *record, float z_x, float z_y) {
    const track_arguments given = {{z_x, z_y}, {0}};
    return track_as_outcome(TRACK_CALL(ekf, 2, record, given));
}
static inline track_outcome track_lock_position(track_filter *record) {
    return track_as_outcome(TRACK_CALL(ekf, 3, record, track_no_arguments));
}
static inline track_outcome track_skip_prediction(track_filter *record) {
    return track_as_outcome(TRACK_CALL(ekf, 4, record, track_no_arguments));
}
static inline track_outcome track_reset_nis_stats(track_filter *record) {
    return track_as_outcome(TRACK_CALL(ekf, 5, record, track_no_arguments));
}
static inline track_outcome track_update_velocity(track_filter *record, float z_vx, float z_vy) {
    const track_arguments given = {{z_vx, z_vy}, {0}};
    return track_as_outcome(TRACK_CALL(ekf, 6, record, given));
}
static inline track_outcome track_update_speed(track_filter *record, float z_speed) {
    const track_arguments given = {{z_speed}, {0}};
    return track_as_outcome(TRACK_CALL(ekf, 7, record, given));
}
static inline track_outcome track_zupt(track_filter *record) {
    return track_as_outcome(TRACK_CALL(ekf, 8, record, track_no_arguments));
}
static inline track_outcome track_update_yaw(track_filter *record, float z_yaw) {
    const track_arguments given = {{z_yaw}, {0}};
    return track_as_outcome(TRACK_CALL(ekf, 9, record, given));
}
static inline track_outcome track_update_yaw_soft(track_filter *record, float z_yaw, float r_yaw_factor) {
    const track_arguments given = {{z_yaw, r_yaw_factor}, {0}};
    return track_as_outcome(TRACK_CALL(ekf, 10, record, given));
}
static inline track_outcome track_lock_yaw(track_filter *record) {
    return track_as_outcome(TRACK_CALL(ekf, 11, record, track_no_arguments));
}
static inline track_outcome track_store_moving_yaw(track_filter *record, float yaw) {
    const track_arguments given = {{yaw}, {0}};
    return track_as_outcome(TRACK_CALL(ekf, 12, record, given));
}
static inline track_outcome track_update_bias(track_filter *record, float z_ax, float z_ay) {
    const track_arguments given = {{z_ax, z_ay}, {0}};
    return track_as_outcome(TRACK_CALL(ekf, 13, record, given));
}
static inline track_outcome track_reset_gate_stats(track_filter *record) {
    return track_as_outcome(TRACK_CALL(ekf, 14, record, track_no_arguments));
}
static inline track_outcome track_new(track_filter *record) {
    return track_as_outcome(TRACK_CALL(ekf, 15, record, track_no_arguments));
}
static inline track_pair track_position(const track_filter *record) {
    return track_as_pair(TRACK_CALL(ekf, 16, record, track_no_arguments));
}
static inline track_stats track_position_gate_stats(const track_filter *record) {
    return track_as_stats(TRACK_CALL(ekf, 17, record, track_no_arguments));
}
static inline track_value track_get_nis_position_avg(const track_filter *record) {
    return track_as_value(TRACK_CALL(ekf, 18, record, track_no_arguments));
}
static inline track_value track_get_gps_discrepancy(const track_filter *record) {
    return track_as_value(TRACK_CALL(ekf, 19, record, track_no_arguments));
}
static inline track_value track_get_effective_pos_sigma(const track_filter *record) {
    return track_as_value(TRACK_CALL(ekf, 20, record, track_no_arguments));
}
static inline track_pair track_velocity(const track_filter *record) {
    return track_as_pair(TRACK_CALL(ekf, 21, record, track_no_arguments));
}
static inline track_value track_speed(const track_filter *record) {
    return track_as_value(TRACK_CALL(ekf, 22, record, track_no_arguments));
}
static inline track_stats track_velocity_gate_stats(const track_filter *record) {
    return track_as_stats(TRACK_CALL(ekf, 23, record, track_no_arguments));
}
static inline track_value track_yaw(const track_filter *record) {
    return track_as_value(TRACK_CALL(ekf, 24, record, track_no_arguments));
}
static inline track_stats track_yaw_gate_stats(const track_filter *record) {
    return track_as_stats(TRACK_CALL(ekf, 25, record, track_no_arguments));
}
static inline track_option track_get_last_moving_yaw(const track_filter *record) {
    return track_as_option(TRACK_CALL(ekf, 26, record, track_no_arguments));
}
static inline track_pair track_biases(const track_filter *record) {
    return track_as_pair(TRACK_CALL(ekf, 27, record, track_no_arguments));
}
/* end */

static inline track_config track_config_default(void) {
    track_filter filter;
    track_new(&filter);
    return filter.numbers.config;
}

/* ---- The low-pass ---- */

typedef struct {
    float b0, b1, b2, a1, a2, x1, x2, y1, y2;
} track_biquad_filter;

/* It has no counts: their word is neither looked at nor written. */
static inline track_answer track_lowpass_call(uint32_t operation, const track_biquad_filter *record,
                                              const track_arguments *given) {
    uint32_t none = 0;
    return track_call(track_lowpass, operation, record, &none, given);
}

/* table: lowpass */
typedef char track_biquad_filter_layout[sizeof(track_biquad_filter) == 4 * 9 ? 1 : -1];
static inline track_number track_lowpass_new(track_biquad_filter *record, float cutoff, float rate) {
    const track_arguments given = {{cutoff, rate}, {0}};
    return track_lowpass_call(0, record, &given).number;
}
static inline track_value track_lowpass_process(track_biquad_filter *record, float input) {
    const track_arguments given = {{input}, {0}};
    return track_as_value(track_lowpass_call(1, record, &given));
}
static inline track_number track_lowpass_reset_to(track_biquad_filter *record, float value) {
    const track_arguments given = {{value}, {0}};
    return track_lowpass_call(2, record, &given).number;
}
/* end */

/* ---- The learners ---- */

/* OrientationCorrector. */
typedef struct {
    struct track_orientation_numbers {
        float pitch_correction, roll_correction, pitch_confidence, roll_confidence;
        float cruise_bias, cruise_bias_sum, cruise_time;
        float alpha, min_speed, min_accel, max_correction;
    } numbers;
    struct track_orientation_counts {
        uint32_t cruise_bias_count, update_count;
    } counts;
} track_orientation_corrector;

/* table: orientation */
TRACK_LAYOUT(track_orientation_corrector, 11, 2);
static inline track_number track_orientation_new(track_orientation_corrector *record, float alpha, float min_speed,
                                                 float min_accel, float max_correction) {
    const track_arguments given = {{alpha, min_speed, min_accel, max_correction}, {0}};
    return TRACK_CALL(orientation, 0, record, given).number;
}
static inline track_number track_orientation_update(track_orientation_corrector *record, float lon_imu, float lon_gps,
                                                    float lat_imu, float lat_gps, float speed, float dt, int is_gps_fresh) {
    const track_arguments given = {{lon_imu, lon_gps, lat_imu, lat_gps, speed, dt}, {is_gps_fresh != 0}};
    return TRACK_CALL(orientation, 1, record, given).number;
}
static inline track_number track_orientation_reset(track_orientation_corrector *record) {
    return TRACK_CALL(orientation, 2, record, track_no_arguments).number;
}
static inline track_value track_orientation_get_cruise_bias(const track_orientation_corrector *record) {
    return track_as_value(TRACK_CALL(orientation, 3, record, track_no_arguments));
}
static inline track_value track_orientation_get_pitch_correction_deg(const track_orientation_corrector *record) {
    return track_as_value(TRACK_CALL(orientation, 4, record, track_no_arguments));
}
static inline track_value track_orientation_get_roll_correction_deg(const track_orientation_corrector *record) {
    return track_as_value(TRACK_CALL(orientation, 5, record, track_no_arguments));
}
static inline track_value track_orientation_get_pitch_confidence(const track_orientation_corrector *record) {
    return track_as_value(TRACK_CALL(orientation, 6, record, track_no_arguments));
}
static inline track_value track_orientation_get_roll_confidence(const track_orientation_corrector *record) {
    return track_as_value(TRACK_CALL(orientation, 7, record, track_no_arguments));
}
/* end */

/* GpsAcceleration. A time is whole milliseconds, and any 64 bits are one; in the record it is two words, the low one first. dt
 * and time_since_fix are floats, in seconds. */
typedef struct {
    struct track_gps_numbers {
        float prev_speed, accel_lon, gps_rate, time_since_fix, rate_ema;
    } numbers;
    struct track_gps_counts {
        uint32_t valid, last_fix_count;
        uint32_t has_prev_fix, prev_time[2];
        uint32_t has_last_rate, last_rate_time[2];
    } counts;
} track_gps_acceleration;

/* table: gps */
TRACK_LAYOUT(track_gps_acceleration, 5, 8);
static inline track_number track_gps_new(track_gps_acceleration *record) {
    return TRACK_CALL(gps, 0, record, track_no_arguments).number;
}
/* The acceleration since the previous fix, if that is strictly between 20 and 500 ms back; else nothing. The fix is stored
 * either way. */
static inline track_option track_gps_update(track_gps_acceleration *record, float speed, uint64_t time) {
    const track_arguments given = {{speed}, {(uint32_t)time, (uint32_t)(time >> 32)}};
    return track_as_option(TRACK_CALL(gps, 1, record, given));
}
/* Learns the rate if the stored time is 1,000 ms or more back, and stores time and count; the first call only stores them, and
 * any other changes nothing. After one gap above 16,777,216 ms (4.7 hours) each call at a later time is refused with 2, since a
 * refused call stores nothing: a fresh learner is the way out. */
static inline track_number track_gps_update_rate(track_gps_acceleration *record, uint32_t fix_count, uint64_t time) {
    const track_arguments given = {{0.0f}, {fix_count, (uint32_t)time, (uint32_t)(time >> 32)}};
    return TRACK_CALL(gps, 2, record, given).number;
}
static inline track_number track_gps_advance_time(track_gps_acceleration *record, float dt) {
    const track_arguments given = {{dt}, {0}};
    return TRACK_CALL(gps, 3, record, given).number;
}
static inline track_value track_gps_get_rate(const track_gps_acceleration *record) {
    return track_as_value(TRACK_CALL(gps, 4, record, track_no_arguments));
}
/* end */

/* TiltEstimator. */
typedef struct {
    struct track_tilt_numbers {
        float accel_x_sum, accel_y_sum, stationary_time, offset_x, offset_y, learn_time;
    } numbers;
    struct track_tilt_counts {
        uint32_t sample_count, offset_valid;
    } counts;
} track_tilt_estimator;

/* table: tilt */
TRACK_LAYOUT(track_tilt_estimator, 6, 2);
static inline track_number track_tilt_new(track_tilt_estimator *record, float learn_time) {
    const track_arguments given = {{learn_time}, {0}};
    return TRACK_CALL(tilt, 0, record, given).number;
}
/* The flag: whether it learned. */
static inline track_flag track_tilt_update_stationary(track_tilt_estimator *record, float ax_earth, float ay_earth, float dt) {
    const track_arguments given = {{ax_earth, ay_earth, dt}, {0}};
    return track_as_flag(TRACK_CALL(tilt, 1, record, given));
}
static inline track_number track_tilt_reset_stationary(track_tilt_estimator *record) {
    return TRACK_CALL(tilt, 2, record, track_no_arguments).number;
}
static inline track_offsets track_tilt_get_offsets(const track_tilt_estimator *record) {
    return track_as_offsets(TRACK_CALL(tilt, 3, record, track_no_arguments));
}
/* end */

/* YawRateCalibrator. */
typedef struct {
    struct track_yawrate_numbers {
        float bias, straight_time, yaw_sum, min_speed, heading_tolerance, learn_time, alpha;
        float heading_history[20];
    } numbers;
    struct track_yawrate_counts {
        uint32_t valid, heading_idx, heading_count, sample_count;
    } counts;
} track_yaw_rate_calibrator;

/* table: yawrate */
TRACK_LAYOUT(track_yaw_rate_calibrator, 27, 4);
static inline track_number track_yawrate_new(track_yaw_rate_calibrator *record, float min_speed, float heading_tolerance,
                                             float learn_time, float alpha) {
    const track_arguments given = {{min_speed, heading_tolerance, learn_time, alpha}, {0}};
    return TRACK_CALL(yawrate, 0, record, given).number;
}
/* A course in radians, from -PI to PI or from 0 to a full turn, up to 32 in size. It is stored folded into -PI to PI. */
static inline track_number track_yawrate_update_heading(track_yaw_rate_calibrator *record, float heading) {
    const track_arguments given = {{heading}, {0}};
    return TRACK_CALL(yawrate, 1, record, given).number;
}
/* The flag: whether it learned. */
static inline track_flag track_yawrate_update(track_yaw_rate_calibrator *record, float yaw_rate, float speed, float dt) {
    const track_arguments given = {{yaw_rate, speed, dt}, {0}};
    return track_as_flag(TRACK_CALL(yawrate, 2, record, given));
}
static inline track_value track_yawrate_get_bias(const track_yaw_rate_calibrator *record) {
    return track_as_value(TRACK_CALL(yawrate, 3, record, track_no_arguments));
}
static inline track_flag track_yawrate_is_valid(const track_yaw_rate_calibrator *record) {
    return track_as_flag(TRACK_CALL(yawrate, 4, record, track_no_arguments));
}
/* end */

/* HeadingAligner. */
typedef struct {
    struct track_aligner_numbers {
        float offset, alpha, min_speed, last_gps_course, time_since_gps, max_gps_age;
    } numbers;
    struct track_aligner_counts {
        uint32_t valid, update_count;
    } counts;
} track_heading_aligner;

/* table: aligner */
TRACK_LAYOUT(track_heading_aligner, 6, 2);
static inline track_number track_aligner_new(track_heading_aligner *record, float alpha, float min_speed, float max_gps_age) {
    const track_arguments given = {{alpha, min_speed, max_gps_age}, {0}};
    return TRACK_CALL(aligner, 0, record, given).number;
}
/* A course in radians, from -PI to PI or from 0 to a full turn, up to 32 in size. It is stored folded into -PI to PI. */
static inline track_number track_aligner_update_gps_course(track_heading_aligner *record, float gps_course) {
    const track_arguments given = {{gps_course}, {0}};
    return TRACK_CALL(aligner, 1, record, given).number;
}
/* The flag: whether it learned. */
static inline track_flag track_aligner_update(track_heading_aligner *record, float ekf_yaw, float speed, float dt) {
    const track_arguments given = {{ekf_yaw, speed, dt}, {0}};
    return track_as_flag(TRACK_CALL(aligner, 2, record, given));
}
static inline track_value track_aligner_get_aligned_heading(const track_heading_aligner *record, float ekf_yaw) {
    const track_arguments given = {{ekf_yaw}, {0}};
    return track_as_value(TRACK_CALL(aligner, 3, record, given));
}
static inline track_flag track_aligner_is_valid(const track_heading_aligner *record) {
    return track_as_flag(TRACK_CALL(aligner, 4, record, track_no_arguments));
}
static inline track_value track_aligner_get_offset(const track_heading_aligner *record) {
    return track_as_value(TRACK_CALL(aligner, 5, record, track_no_arguments));
}
static inline track_value track_aligner_get_confidence(const track_heading_aligner *record) {
    return track_as_value(TRACK_CALL(aligner, 6, record, track_no_arguments));
}
static inline track_number track_aligner_reset(track_heading_aligner *record) {
    return TRACK_CALL(aligner, 7, record, track_no_arguments).number;
}
/* end */

#undef TRACK_CALL
#undef TRACK_LAYOUT

/* ---- The blend ---- */

typedef struct {
    float high, medium, low;
} track_weights;

static inline track_blended track_blend_call(float imu, uint32_t has_gps, float gps, float confidence, track_weights weights) {
    const float row[3] = {weights.high, weights.medium, weights.low};
    float values[2] = {0.0f, 0.0f};
    track_blended answer;
    answer.number = track_blend(imu, has_gps, gps, confidence, row, values);
    answer.acceleration = values[0];
    answer.weight = values[1];
    return answer;
}

static inline track_blended track_blend_with_gps(float imu, float gps, float confidence, track_weights weights) {
    return track_blend_call(imu, 1, gps, confidence, weights);
}
static inline track_blended track_blend_without_gps(float imu, float confidence, track_weights weights) {
    return track_blend_call(imu, 0, 0.0f, confidence, weights);
}

/* ---- The log ---- */

/* The room that track_list asks for; it depends on the log's length alone. */
static inline uint64_t track_list_room(const uint8_t *log, uint64_t log_length) {
    uint8_t none;
    return track_list(log, log_length, &none, 0);
}

/* Why reading a log stopped, by document 01's number. It is no refusal of a call: those are listed, and reading goes on. */
typedef uint32_t track_stop;
enum {
    TRACK_READ_WHOLE = 0,
    TRACK_STOP_CONFIGURATION = 3,
    TRACK_STOP_CUT = 7,
    TRACK_STOP_UNKNOWN = 8,
    TRACK_STOP_LENGTH = 9,
    TRACK_STOP_PLACE = 10
};

static inline const char *track_stop_sentence(track_stop stop) {
    switch (stop) {
    case TRACK_READ_WHOLE: return "read to its end";
    case TRACK_STOP_CONFIGURATION: return "the configuration is not finite or out of range";
    case TRACK_STOP_CUT: return "the last record is cut";
    case TRACK_STOP_UNKNOWN: return "a tag, a mark or an edition is unknown";
    case TRACK_STOP_LENGTH: return "a record has the wrong length for its tag";
    case TRACK_STOP_PLACE: return "the first record is no configuration, a later one is, or an edition is not the second";
    }
    return "a stop that is not known here";
}

/* track_replay into a filter. Where no configuration was taken (an empty log, a stop at the first record) the filter stays as
 * it was: one of zeros then still has an r_pos of 0, which no configuration has. */
static inline track_stop track_replay_log(const uint8_t *log, uint64_t log_length, track_filter *filter) {
    return track_replay(log, log_length, (float *)&filter->numbers, (uint32_t *)&filter->counts);
}

/* A log replayed one record at a time: the number of the next record, the edition by which a prediction is made, and the
 * filter. While the number is 1, no configuration was taken. The edition is the first, or that of the log's second record. */
typedef struct {
    uint32_t number;
    track_edition edition;
    track_filter filter;
} track_replayer;

/* What a record comes to. A line of the listing: what the record's call gave, a number and, if it was answered, a verdict. A
 * stop: its number; the replayer stays as it was. The end: there was no record. */
typedef enum { TRACK_TURN_LINE, TRACK_TURN_STOP, TRACK_TURN_END } track_turn_kind;

typedef struct {
    track_turn_kind kind;
    track_number number;
    track_verdict verdict;
    float gate_value; /* the gate value that was compared, where the verdict is accepted or rejected; else 0 */
} track_turn;

static inline void track_replay_begin(track_replayer *replayer) {
    replayer->number = 1;
    replayer->edition = TRACK_EDITION_FIRST;
    track_new(&replayer->filter);
}

/* The turn of the record that `record` points at. `length` bytes of the log are there, 0 at its end; those behind the record
 * are not looked at. The archive tells a line by raising the number, but not beyond the largest: for that, one less is handed
 * on. */
static inline track_turn track_replay_next(track_replayer *replayer, const uint8_t *record, uint64_t length) {
    const uint32_t number = replayer->number < UINT32_MAX ? replayer->number : UINT32_MAX - 1;
    uint32_t replay[2] = {number, replayer->edition}, shown[4] = {0, 0, 0, 0};
    float values[2] = {0.0f, 0.0f};
    track_turn turn;
    turn.number = track_replay_record(record, length, replay, (float *)&replayer->filter.numbers,
                                      (uint32_t *)&replayer->filter.counts, values, shown);
    turn.verdict = shown[0];
    turn.gate_value = values[0];
    turn.kind = replay[0] != number ? TRACK_TURN_LINE : turn.number != 0 ? TRACK_TURN_STOP : TRACK_TURN_END;
    if (turn.kind == TRACK_TURN_LINE) replayer->number = replay[0];
    replayer->edition = replay[1];
    return turn;
}

/* The length of the record that begins with these bytes, its header. */
static inline uint64_t track_record_length(const uint8_t header[3]) {
    return 3 + (uint64_t)header[1] + 256 * (uint64_t)header[2];
}

/* ---- Gate values by bucket ---- */

/* How close to the gate fixes came, by request C-14. Bucket k counts the accepted gate values of position from k/4 up to, and
 * without, (k + 1)/4; the last one has 32.0 too. A count stops at 4,294,967,295. Any words are a summary. */
typedef struct {
    uint32_t buckets[128], rejections;
} track_summary;
typedef char track_summary_layout[sizeof(track_summary) == 4 * 129 ? 1 : -1];

static inline track_summary track_summary_empty(void) {
    const track_summary summary = {{0}, 0};
    return summary;
}

/* The lowest value of a bucket. */
static inline float track_bucket_begin(uint32_t bucket) { return (float)bucket / 4; }

/* Counts what track_update_position gave. Where that was refused there is nothing to count, and its number comes back; an
 * outcome that is neither accepted nor rejected gives TRACK_OUT_OF_RANGE. A yaw has another gate, and does not belong here. */
static inline track_number track_summary_add_outcome(track_summary *summary, track_outcome outcome) {
    if (outcome.number != TRACK_ANSWERED) return outcome.number;
    return track_summary_add((uint32_t *)summary, outcome.verdict, outcome.gate_value);
}

/* Adds each count of the other to the one in its place. It may be the same summary: it is copied first. */
static inline void track_summary_merge_with(track_summary *summary, const track_summary *other) {
    const track_summary apart = *other;
    track_summary_merge((uint32_t *)summary, (const uint32_t *)&apart);
}

/* The summary of a log's position verdicts, up to its end or its stop; what `summary` held before is gone. Where no
 * configuration was taken it is empty. */
static inline track_stop track_summarize_log(const uint8_t *log, uint64_t log_length, track_summary *summary) {
    return track_summarize(log, log_length, (uint32_t *)summary);
}

/* ---- Writing a log ---- */

/* Whether a record was written, by the number of request C-11: it was, or why it was refused. A refused record writes nothing,
 * neither to the buffer nor to the used length. */
typedef uint32_t track_written;
enum {
    TRACK_WRITTEN = 0,
    TRACK_WRITE_USED = 2,
    TRACK_WRITE_UNKNOWN = 8,
    TRACK_WRITE_LENGTH = 9,
    TRACK_WRITE_FULL = 11
};

static inline const char *track_write_sentence(track_written written) {
    switch (written) {
    case TRACK_WRITTEN: return "written";
    case TRACK_WRITE_USED: return "the used length is beyond the buffer";
    case TRACK_WRITE_UNKNOWN: return "the tag, the mark or the edition is unknown";
    case TRACK_WRITE_LENGTH: return "the payload has the wrong length for its tag";
    case TRACK_WRITE_FULL: return "the record is longer than what is left of the buffer";
    }
    return "a number that is not known here";
}

/* A log in the making: a buffer, its length, and the used length, that of the log in the buffer's front. `{buf, sizeof buf, 0}`
 * begins a log; with another used length records go behind what the buffer already holds.
 * A writer knows neither a record's number nor the ranges of its floats: that the first record alone is a configuration, and
 * one in range, and that an edition is the second record is a caller's to keep, and replaying tests it (TRACK_STOP_PLACE,
 * TRACK_STOP_CONFIGURATION). */
typedef struct {
    uint8_t *buf;
    uint64_t buf_length, used;
} track_writer;

/* Any record. */
static inline track_written track_write_record(track_writer *writer, uint32_t tag, const uint8_t *payload,
                                               uint64_t payload_length) {
    return track_append(writer->buf, writer->buf_length, &writer->used, tag, payload, payload_length);
}

/* A record of floats. Its payload is their own bytes, NaN or not: x86-64 has the low one first, as a log has it. */
static inline track_written track_write_floats(track_writer *writer, uint32_t tag, const float *floats, uint64_t count) {
    return track_write_record(writer, tag, (const uint8_t *)floats, count * sizeof *floats);
}

static inline track_written track_write_config(track_writer *writer, track_config config) {
    const float floats[7] = {config.q_acc, config.q_gyro, config.q_bias, config.r_pos,
                             config.r_vel, config.r_yaw, config.min_speed};
    return track_write_floats(writer, 1, floats, 7);
}
/* The edition of the log's predictions; without it they are by the first. One that no byte holds is handed on as 255, which is
 * unknown too. */
static inline track_written track_write_edition(track_writer *writer, track_edition edition) {
    const uint8_t number = edition < UINT8_MAX ? (uint8_t)edition : UINT8_MAX;
    return track_write_record(writer, 10, &number, 1);
}
static inline track_written track_write_predict(track_writer *writer, float ax_earth, float ay_earth, float wz, float dt) {
    const float floats[4] = {ax_earth, ay_earth, wz, dt};
    return track_write_floats(writer, 2, floats, 4);
}
static inline track_written track_write_position(track_writer *writer, float z_x, float z_y) {
    const float floats[2] = {z_x, z_y};
    return track_write_floats(writer, 3, floats, 2);
}
static inline track_written track_write_velocity(track_writer *writer, float z_vx, float z_vy) {
    const float floats[2] = {z_vx, z_vy};
    return track_write_floats(writer, 4, floats, 2);
}
static inline track_written track_write_speed(track_writer *writer, float z_speed) {
    return track_write_floats(writer, 5, &z_speed, 1);
}
static inline track_written track_write_yaw(track_writer *writer, float z_yaw) {
    return track_write_floats(writer, 6, &z_yaw, 1);
}
static inline track_written track_write_bias(track_writer *writer, float z_ax, float z_ay) {
    const float floats[2] = {z_ax, z_ay};
    return track_write_floats(writer, 7, floats, 2);
}
static inline track_written track_write_yaw_soft(track_writer *writer, float z_yaw, float r_yaw_factor) {
    const float floats[2] = {z_yaw, r_yaw_factor};
    return track_write_floats(writer, 9, floats, 2);
}

static inline track_written track_write_mark(track_writer *writer, uint8_t mark) {
    return track_write_record(writer, 8, &mark, 1);
}
static inline track_written track_write_zupt(track_writer *writer) { return track_write_mark(writer, 1); }
static inline track_written track_write_lock_position(track_writer *writer) { return track_write_mark(writer, 2); }
static inline track_written track_write_lock_yaw(track_writer *writer) { return track_write_mark(writer, 3); }
static inline track_written track_write_skip_prediction(track_writer *writer) { return track_write_mark(writer, 4); }
static inline track_written track_write_reset_gate_stats(track_writer *writer) { return track_write_mark(writer, 5); }
static inline track_written track_write_reset_nis_stats(track_writer *writer) { return track_write_mark(writer, 6); }

#endif
