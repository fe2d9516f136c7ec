/* A worked example of track.h: the settled cases K1 to K4, K6, K9 to K12, the editions of request C-16, the times of request
 * C-13, the log of document 01, logs that are written by request C-11 and replayed, and the summaries of request C-14; the
 * values are those of the papers, and for a turn what the edition's rule gives in fractions, each operation rounded to a float.
 * Exits with 1 if one of them comes out otherwise. */
#include <math.h>
#include <stdio.h>
#include <string.h>

#include "track.h"

static int wrong = 0;

static void expect(const char *what, int holds) {
    printf("%-64s %s\n", what, holds ? "as the papers say" : "WRONG");
    wrong += !holds;
}

static uint32_t bits_of(float number) {
    uint32_t bits;
    memcpy(&bits, &number, sizeof bits);
    return bits;
}

/* Whether a call was answered with this verdict, and a gate value of these bits. */
static int is_answer(track_outcome given, track_verdict verdict, uint32_t gate_value) {
    return given.number == TRACK_ANSWERED && given.verdict == verdict && bits_of(given.gate_value) == gate_value;
}

/* A filter whose position noise is 100 takes a fix at the gate, and rejects one beyond it. */
static void fixes(void) {
    track_config config = track_config_default();
    track_filter filter, other, stays;
    config.r_pos = 100.0f;
    track_with_config(&filter, config);
    other = stays = filter;

    track_outcome taken = track_update_position(&filter, 80.0f, 0.0f);
    track_pair at = track_position(&filter);
    expect("K1: the fix (80, 0) is accepted, its gate value is 32", is_answer(taken, TRACK_ACCEPTED, 0x42000000));
    expect("K1: the car is at (40, 0)", at.number == TRACK_ANSWERED && at.x == 40.0f && at.y == 0.0f);
    expect("K1: variances of 50", filter.numbers.p[0] == 50.0f && filter.numbers.p[1] == 50.0f);
    expect("K1: the NIS average is the gate value", track_get_nis_position_avg(&filter).value == 32.0f);

    taken = track_update_position(&other, 80.0f, 1.0f);
    stays.counts.rejected_position = 1;
    stays.counts.rejection_run = 1;
    expect("K2: the fix (80, 1) is rejected, its gate value is 32.005", is_answer(taken, TRACK_REJECTED, 0x4200051F));
    expect("K2: one tally is raised and a run begins, else nothing changes", memcmp(&other, &stays, sizeof other) == 0);
    expect("K9: the NIS average without fixes is 2", track_get_nis_position_avg(&other).value == 2.0f);

    taken = track_update_position(&other, NAN, 0.0f);
    expect("a fix that is NaN is refused with 1, without a gate value",
           taken.number == TRACK_NOT_FINITE && bits_of(taken.gate_value) == 0);
    expect("and changes nothing", memcmp(&other, &stays, sizeof other) == 0);
    printf("  (%u: %s)\n", (unsigned)taken.number, track_sentence(taken.number));
}

/* A car that leaves a tunnel 40 m off: eight fixes are rejected, and the ninth is taken. */
static void tunnel(void) {
    track_filter filter;
    track_new(&filter);
    track_lock_position(&filter);
    for (uint32_t fix = 1; fix <= 7; fix++)
        expect("40 m off is rejected, 1600 / 21",
               is_answer(track_update_position(&filter, 40.0f, 0.0f), TRACK_REJECTED, 0x42986186) &&
                   filter.counts.rejection_run == fix && filter.numbers.p[0] == 1.0f);
    expect("so is the eighth", is_answer(track_update_position(&filter, 40.0f, 0.0f), TRACK_REJECTED, 0x42986186));
    expect("which raises the variances to 100", filter.numbers.p[0] == 100.0f && filter.numbers.p[1] == 100.0f);
    expect("and begins a new run", filter.counts.rejection_run == 0 && filter.counts.rejected_position == 8);
    expect("the ninth is taken, 1600 / 120", is_answer(track_update_position(&filter, 40.0f, 0.0f), TRACK_ACCEPTED, 0x41555555));
    filter.counts.rejection_run = 8;
    expect("a run of 8 is refused", track_position(&filter).number == TRACK_UNSOUND);
    expect("by no other channel", track_velocity(&filter).number == TRACK_ANSWERED);
}

/* A yaw at the gate is taken, and one beyond it rejected; the noise of a soft one is r_yaw times its factor. */
static void yaws(void) {
    track_config config = track_config_default();
    track_filter filter, stays;
    config.r_yaw = 0.375f;
    track_with_config(&filter, config);
    filter.numbers.p[2] = 0.375f;
    track_outcome taken = track_update_yaw(&filter, 3.0f);
    expect("K3: a yaw of 3 is accepted, its gate value is 12", is_answer(taken, TRACK_ACCEPTED, 0x41400000));
    expect("K3: half of it is taken", track_yaw(&filter).value == 1.5f && filter.numbers.p[2] == 0.1875f);

    stays = filter;
    stays.counts.rejected_yaw = 2;
    taken = track_update_yaw(&filter, -1.5f);
    expect("then one 3 back is rejected: 9 / 0.5625 is 16", is_answer(taken, TRACK_REJECTED, 0x41800000));
    taken = track_update_yaw_soft(&filter, -1.5f, 0.5f);
    expect("so it is with half the noise: 9 / 0.375 is 24", is_answer(taken, TRACK_REJECTED, 0x41C00000));
    expect("two tallies are raised, else nothing changes", memcmp(&filter, &stays, sizeof filter) == 0);
    taken = track_update_yaw_soft(&filter, -1.5f, 1.5f);
    expect("with 1.5 times the noise it is accepted: 9 / 0.75 is 12", is_answer(taken, TRACK_ACCEPTED, 0x41400000));
    expect("a quarter of it is taken", track_yaw(&filter).value == 0.75f && filter.numbers.p[2] == 0.140625f);
}

static void motion(void) {
    track_config config = track_config_default();
    track_filter filter, other;
    config.r_vel = 100.0f;
    track_with_config(&filter, config);
    track_outcome taken = track_update_velocity(&filter, 10.0f, -4.0f);
    track_pair velocity = track_velocity(&filter);
    expect("K4: a velocity has no gate", is_answer(taken, TRACK_DONE, 0));
    expect("K4: the velocity (10, -4) becomes (5, -2)", velocity.x == 5.0f && velocity.y == -2.0f);

    config = track_config_default();
    config.q_acc = 1.0f;
    track_with_config(&filter, config);
    filter.numbers.x[3] = 4.0f;
    other = filter;
    taken = track_predict(&filter, TRACK_EDITION_FIRST, 2.0f, 0.0f, 0.0f, 0.5f);
    expect("K6: half a second on, at 2.25 and with 5 m/s",
           taken.number == TRACK_ANSWERED && track_position(&filter).x == 2.25f && track_velocity(&filter).x == 5.0f);
    expect("K6: the variance is 100.0625", filter.numbers.p[0] == 100.0625f);
    taken = track_predict(&other, TRACK_EDITION_SECOND, 2.0f, 0.0f, 0.0f, 0.5f);
    expect("K6: so it is by the second edition",
           taken.number == TRACK_ANSWERED && memcmp(&filter, &other, sizeof filter) == 0);
}

/* A fresh filter at (1.5, -1.25) with a velocity of (17, -5), once it has turned by 1.3 rad/s for 0.2 s. */
static track_filter turned(track_edition edition, float yaw) {
    static const float x[7] = {1.5f, -1.25f, 0.0f, 17.0f, -5.0f, 0.0f, 0.0f};
    track_filter filter;
    track_outcome taken;
    track_new(&filter);
    memcpy(filter.numbers.x, x, sizeof x);
    filter.numbers.x[2] = yaw;
    taken = track_predict(&filter, edition, 2.0f, 4.0f, 1.3f, 0.2f);
    expect("a prediction that turns is done", is_answer(taken, TRACK_DONE, 0));
    return filter;
}

static int is_at(const track_filter *filter, uint32_t x, uint32_t y) {
    return bits_of(filter->numbers.x[0]) == x && bits_of(filter->numbers.x[1]) == y;
}

/* Whether a prediction is refused with this number, and the filter stays. */
static int is_unpredicted(track_filter filter, track_edition edition, float ax_earth, track_number number) {
    const track_filter stays = filter;
    const track_outcome taken = track_predict(&filter, edition, ax_earth, 4.0f, 1.3f, 0.2f);
    return taken.number == number && memcmp(&filter, &stays, sizeof filter) == 0;
}

/* The two turn rules: they differ in where the car is, and at heading 0 not even there. */
static void editions(void) {
    track_filter first = turned(TRACK_EDITION_FIRST, 1.5f), second = turned(TRACK_EDITION_SECOND, 1.5f), fresh, bad;
    expect("by the first edition the car is at (2.29, 2.19)", is_at(&first, 0x4012DE80, 0x400C6230));
    expect("by the second at (4.99, -1.80), whatever its heading", is_at(&second, 0x409FB705, 0xBFE64DFF));
    memcpy(second.numbers.x, first.numbers.x, 2 * sizeof(float));
    expect("all else is the same", memcmp(&first, &second, sizeof first) == 0);
    first = turned(TRACK_EDITION_FIRST, 0.0f);
    second = turned(TRACK_EDITION_SECOND, 0.0f);
    expect("at heading 0 the first is there too", is_at(&first, 0x409FB705, 0xBFE64DFF));
    expect("and nothing differs", memcmp(&first, &second, sizeof first) == 0);

    track_new(&fresh);
    first = fresh;
    first.numbers.x[3] = 2.0f;
    second = first;
    track_predict(&first, TRACK_EDITION_FIRST, 2.0f, 0.0f, 1.0f, 0.5f);
    track_predict(&second, TRACK_EDITION_SECOND, 2.0f, 0.0f, 1.0f, 0.5f);
    expect("at 2 m/s, the min_speed, it goes on by 1.25", first.numbers.x[0] == 1.25f && first.numbers.x[1] == 0.0f);
    expect("by either edition", memcmp(&first, &second, sizeof first) == 0);
    bad = fresh;
    bad.numbers.config.r_pos = 0.0f;
    expect("editions 0 and 3 are refused with 2", is_unpredicted(fresh, 0, 2.0f, TRACK_OUT_OF_RANGE) &&
                                                      is_unpredicted(fresh, 3, 2.0f, TRACK_OUT_OF_RANGE));
    expect("so are those of which a part is 1 or 2", is_unpredicted(fresh, 0x101, 2.0f, TRACK_OUT_OF_RANGE) &&
                                                         is_unpredicted(fresh, 0x20002, 2.0f, TRACK_OUT_OF_RANGE));
    expect("an acceleration that is NaN comes before", is_unpredicted(fresh, 3, NAN, TRACK_NOT_FINITE));
    expect("the configuration behind", is_unpredicted(bad, 3, 2.0f, TRACK_OUT_OF_RANGE) &&
                                           is_unpredicted(bad, TRACK_EDITION_SECOND, 2.0f, TRACK_BAD_PARAMETER));
}

static int is_acceleration(track_option given, float wanted) {
    return given.number == TRACK_ANSWERED && given.some && given.value == wanted;
}
static int is_nothing(track_option given) { return given.number == TRACK_ANSWERED && !given.some; }

/* What 12 m/s give 250 ms after a first fix of 10 m/s. */
static track_option from_10_to_12(uint64_t first_time) {
    track_gps_acceleration gps;
    track_gps_new(&gps);
    track_gps_update(&gps, 10.0f, first_time);
    return track_gps_update(&gps, 12.0f, first_time + 250);
}

static void accelerations(void) {
    const uint64_t late = UINT64_C(1) << 40;
    track_gps_acceleration gps;
    expect("K10: from 10 to 12 m/s in 250 ms: 8 m/s2", is_acceleration(from_10_to_12(1000), 8.0f));
    expect("a first fix at 0 counts", is_acceleration(from_10_to_12(0), 8.0f));
    expect("one where 32 bits end too", is_acceleration(from_10_to_12(UINT32_MAX), 8.0f));
    expect("and one at 2^40", is_acceleration(from_10_to_12(late), 8.0f));
    expect("and one 250 ms before 64 bits end", is_acceleration(from_10_to_12(UINT64_MAX - 250), 8.0f));

    track_gps_new(&gps);
    expect("a first fix gives nothing", is_nothing(track_gps_update(&gps, 10.0f, 1000)));
    expect("K11: after 500 ms: nothing", is_nothing(track_gps_update(&gps, 12.0f, 1500)));
    expect("K11: then 4 m/s2", is_acceleration(track_gps_update(&gps, 13.0f, 1750), 4.0f));
    expect("a clock that goes back gives nothing", is_nothing(track_gps_update(&gps, 12.0f, 0)));
    expect("and is stored", is_acceleration(track_gps_update(&gps, 13.0f, 250), 4.0f));
    expect("2^40 + 250 is far off: nothing", is_nothing(track_gps_update(&gps, 12.0f, late + 250)));
    expect("it is stored with its low word first", gps.counts.prev_time[0] == 250 && gps.counts.prev_time[1] == 256);
}

/* Fixes are counted from half a second before 32 bits end. */
static void rates(void) {
    const uint64_t begin = UINT32_MAX - UINT64_C(499), second = begin + 1000, gap = 16777216;
    track_gps_acceleration gps, stays;
    track_gps_new(&gps);
    expect("a first count is stored", track_gps_update_rate(&gps, 20, begin) == TRACK_ANSWERED);
    stays = gps;
    expect("999 ms later there is no rate", track_gps_update_rate(&gps, 25, begin + 999) == TRACK_ANSWERED);
    expect("nor with a clock that goes back", track_gps_update_rate(&gps, 25, 0) == TRACK_ANSWERED);
    expect("and nothing changes", memcmp(&gps, &stays, sizeof gps) == 0);
    expect("5 fixes in 1,000 ms are taken", track_gps_update_rate(&gps, 25, second) == TRACK_ANSWERED);
    expect("the rate is 1.5, 0.3 of 5", track_gps_get_rate(&gps).value == 1.5f);
    expect("its time too has the low word first", gps.counts.last_rate_time[0] == 500 && gps.counts.last_rate_time[1] == 1);

    stays = gps;
    expect("a gap above 16,777,216 ms is refused with 2",
           track_gps_update_rate(&gps, 30, second + gap + 1) == TRACK_OUT_OF_RANGE);
    expect("so is the next count", track_gps_update_rate(&gps, 35, second + gap + 1001) == TRACK_OUT_OF_RANGE);
    expect("and nothing changes", memcmp(&gps, &stays, sizeof gps) == 0);
    expect("16,777,216 ms are taken", track_gps_update_rate(&gps, 30, second + gap) == TRACK_ANSWERED);
    track_gps_new(&stays);
    expect("a fresh learner is the way out", track_gps_update_rate(&stays, 35, second + gap + 1001) == TRACK_ANSWERED);
}

static void low_pass(void) {
    track_biquad_filter filter = {0.0f, 0.0f, 0.0f, 0.0f, 0.0f, 0.0f, 0.0f, 0.0f, 0.0f};
    expect("K12: a cutoff of 100 at a rate of 200 is refused with 3",
           track_lowpass_new(&filter, 100.0f, 200.0f) == TRACK_BAD_PARAMETER);
    expect("K12: and makes no filter", filter.b0 == 0.0f);
    expect("a cutoff of 5 is taken", track_lowpass_new(&filter, 5.0f, 200.0f) == TRACK_ANSWERED && filter.b0 > 0.0f);
}

/* Document 01's log of a configuration with r_pos 100 and one fix. */
static const uint8_t log_bytes[] = {
    0x01, 0x1C, 0x00, 0xCD, 0xCC, 0xCC, 0x3E, 0x0A, 0xD7, 0xA3, 0x3B, 0x6F, 0x12, 0x83, 0x3A, 0x00, 0x00,
    0xC8, 0x42, 0xCD, 0xCC, 0x4C, 0x3E, 0xCD, 0xCC, 0xCC, 0x3D, 0x00, 0x00, 0x00, 0x40,
    0x03, 0x08, 0x00, 0x00, 0x00, 0xA0, 0x42, 0x00, 0x00, 0x00, 0x00,
};

static const char log_listing[] =
    "1 1 D\n"
    "2 3 A 42000000\n"
    "x 42200000 00000000 00000000 00000000 00000000 00000000 00000000\n"
    "p 42480000 42480000 42C80000 42C80000 42C80000 3F800000 3F800000\n";

/* Whether a log has this listing. */
static int is_listed(const uint8_t *log, uint64_t log_length, const char *wanted) {
    uint8_t listing[1024];
    expect("the room for the log's listing is at hand", track_list_room(log, log_length) <= sizeof listing);
    uint64_t length = track_list(log, log_length, listing, sizeof listing);
    return length == strlen(wanted) && memcmp(listing, wanted, length) == 0;
}

static void log_sample(void) {
    expect("the listing of the log", is_listed(log_bytes, sizeof log_bytes, log_listing));

    track_config config = track_config_default();
    track_filter filter, stays;
    track_new(&filter);
    config.r_pos = 100.0f;
    stays = filter;
    expect("a log whose first record is cut is not replayed",
           track_replay_log(log_bytes, 30, &filter) == TRACK_STOP_CUT && memcmp(&filter, &stays, sizeof filter) == 0);
    expect("the log is replayed to its end", track_replay_log(log_bytes, sizeof log_bytes, &filter) == TRACK_READ_WHOLE);
    expect("its configuration is the default but for r_pos", memcmp(&filter.numbers.config, &config, sizeof config) == 0);
    expect("its fix is accepted", filter.counts.accepted_position == 1);
    expect("the car is at (40, 0)", filter.numbers.x[0] == 40.0f && filter.numbers.x[1] == 0.0f);
    expect("its variance is 50", filter.numbers.p[0] == 50.0f);
    expect("its gate value is 32", filter.numbers.nis_position_sum == 32.0f && filter.counts.nis_position_count == 1);
}

/* Whether a turn is the line of a call that was answered with this verdict, and a gate value of these bits. */
static int is_line(track_turn turn, track_verdict verdict, uint32_t gate_value) {
    return turn.kind == TRACK_TURN_LINE && turn.number == TRACK_ANSWERED && turn.verdict == verdict &&
           bits_of(turn.gate_value) == gate_value;
}

/* Whether a turn is the line of a refused call, a stop or the end, with this number and without a gate value. */
static int is_number(track_turn turn, track_turn_kind kind, track_number number) {
    return turn.kind == kind && turn.number == number && bits_of(turn.gate_value) == 0;
}

/* The same log one record at a time, and behind it a fix that is NaN. */
static void log_by_records(void) {
    static const uint8_t not_finite[] = {0x03, 0x08, 0x00, 0x00, 0x00, 0xC0, 0x7F, 0x00, 0x00, 0x00, 0x00};
    const uint8_t *fix = log_bytes + track_record_length(log_bytes);
    track_filter whole;
    track_replayer replayer;
    track_turn turn;
    track_replay_log(log_bytes, sizeof log_bytes, &whole);
    track_replay_begin(&replayer);

    turn = track_replay_next(&replayer, fix, 11);
    expect("a fix is no first record", is_number(turn, TRACK_TURN_STOP, TRACK_STOP_PLACE));
    turn = track_replay_next(&replayer, log_bytes, sizeof log_bytes);
    expect("the configuration is done", is_line(turn, TRACK_DONE, 0));
    expect("it has 31 bytes", fix == log_bytes + 31);
    turn = track_replay_next(&replayer, fix, 11);
    expect("the fix is accepted, its gate value is 32", is_line(turn, TRACK_ACCEPTED, 0x42000000));
    expect("the filter is the log's", memcmp(&replayer.filter, &whole, sizeof whole) == 0);
    turn = track_replay_next(&replayer, not_finite, sizeof not_finite);
    expect("a fix that is NaN is a line with 1", is_number(turn, TRACK_TURN_LINE, TRACK_NOT_FINITE));
    expect("and changes nothing", memcmp(&replayer.filter, &whole, sizeof whole) == 0);
    expect("then the log ends", is_number(track_replay_next(&replayer, fix, 0), TRACK_TURN_END, 0));
    expect("after three lines", replayer.number == 4);
    replayer.filter.numbers.config.r_pos = 0.0f;
    turn = track_replay_next(&replayer, fix, 11);
    expect("a fix refused with 3 is a line, and no stop", is_number(turn, TRACK_TURN_LINE, TRACK_BAD_PARAMETER));

    replayer.number = UINT32_MAX;
    turn = track_replay_next(&replayer, not_finite, sizeof not_finite);
    expect("with the last number a refusal is a line too", is_number(turn, TRACK_TURN_LINE, TRACK_NOT_FINITE));
    turn = track_replay_next(&replayer, fix, 1);
    expect("and a cut record a stop", is_number(turn, TRACK_TURN_STOP, TRACK_STOP_CUT));
    expect("and the number stays", replayer.number == UINT32_MAX);
}

/* Document 01's log, written into a buffer that it fills. */
static void writing_sample(void) {
    uint8_t buf[sizeof log_bytes + 1] = {0}, stays[sizeof buf];
    track_writer writer = {buf, sizeof log_bytes, 0};
    track_config config = track_config_default();
    config.r_pos = 100.0f;
    buf[sizeof log_bytes] = 0xEE;

    expect("the configuration is written", track_write_config(&writer, config) == TRACK_WRITTEN && writer.used == 31);
    memcpy(stays, buf, sizeof buf);
    writer.buf_length = 41;
    expect("where a byte is missing, the fix is not", track_write_position(&writer, 80.0f, 0.0f) == TRACK_WRITE_FULL);
    expect("and nothing is", writer.used == 31 && memcmp(buf, stays, sizeof buf) == 0);
    writer.buf_length = 42;
    expect("with it, the fix is written", track_write_position(&writer, 80.0f, 0.0f) == TRACK_WRITTEN && writer.used == 42);
    expect("the bytes are document 01's", memcmp(buf, log_bytes, sizeof log_bytes) == 0);
    expect("the byte behind them stays", buf[sizeof log_bytes] == 0xEE);
    expect("the listing of what was written", is_listed(buf, writer.used, log_listing));
    printf("  (%u: %s)\n", (unsigned)TRACK_WRITE_FULL, track_write_sentence(TRACK_WRITE_FULL));
}

/* A record of each kind, of position a second one that its gate rejects and a third that is NaN: how many are written. */
static int write_each(track_writer *writer) {
    track_config config = track_config_default();
    int written = 0;
    config.q_acc = 1.0f;
    config.r_pos = config.r_vel = config.r_yaw = 100.0f;
    written += track_write_config(writer, config) == TRACK_WRITTEN;
    written += track_write_edition(writer, TRACK_EDITION_SECOND) == TRACK_WRITTEN;
    written += track_write_position(writer, 80.0f, 0.0f) == TRACK_WRITTEN;
    written += track_write_position(writer, 1000.0f, 0.0f) == TRACK_WRITTEN;
    written += track_write_velocity(writer, 10.0f, -4.0f) == TRACK_WRITTEN;
    written += track_write_yaw(writer, 3.0f) == TRACK_WRITTEN;
    written += track_write_yaw_soft(writer, 2.5f, 0.5f) == TRACK_WRITTEN;
    written += track_write_predict(writer, 2.0f, 4.0f, 0.0f, 0.5f) == TRACK_WRITTEN;
    written += track_write_speed(writer, 6.0f) == TRACK_WRITTEN;
    written += track_write_bias(writer, 1.0f, 0.0f) == TRACK_WRITTEN;
    written += track_write_zupt(writer) == TRACK_WRITTEN;
    written += track_write_lock_position(writer) == TRACK_WRITTEN;
    written += track_write_lock_yaw(writer) == TRACK_WRITTEN;
    written += track_write_skip_prediction(writer) == TRACK_WRITTEN;
    written += track_write_reset_gate_stats(writer) == TRACK_WRITTEN;
    written += track_write_reset_nis_stats(writer) == TRACK_WRITTEN;
    written += track_write_position(writer, NAN, 0.0f) == TRACK_WRITTEN;
    return written;
}

/* A log that is replayed record by record, from the front of `rest` on. */
typedef struct {
    track_replayer replayer;
    const uint8_t *rest;
    uint64_t length;
} reading;

static track_turn next(reading *log) {
    const track_turn turn = track_replay_next(&log->replayer, log->rest, log->length);
    const uint64_t read = turn.kind == TRACK_TURN_LINE ? track_record_length(log->rest) : 0;
    log->rest += read;
    log->length -= read;
    return turn;
}

/* Whether the next record is a line with a verdict, and a gate value of these bits. */
static int is_next(reading *log, track_verdict verdict, uint32_t gate_value) {
    return is_line(next(log), verdict, gate_value);
}
static int is_done(reading *log) { return is_next(log, TRACK_DONE, 0); }

/* The gate values are 6400 / 200, 921600 / 150, 9 / 200 and 1 / 100. */
static void replay_measurements(reading *log) {
    const struct track_filter_numbers *at = &log->replayer.filter.numbers;
    const struct track_filter_counts *counts = &log->replayer.filter.counts;
    expect("a configuration is done", is_done(log) && at->config.q_acc == 1.0f && at->config.min_speed == 2.0f);
    expect("an edition is done", is_done(log) && log->replayer.edition == TRACK_EDITION_SECOND);
    expect("a fix is accepted, as K1 has it",
           is_next(log, TRACK_ACCEPTED, 0x42000000) && at->x[0] == 40.0f && at->p[1] == 50.0f);
    expect("a fix far off is rejected",
           is_next(log, TRACK_REJECTED, 0x45C00000) && counts->rejected_position == 1 && at->x[0] == 40.0f);
    expect("a velocity is done, as K4 has it", is_done(log) && at->x[3] == 5.0f && at->x[4] == -2.0f);
    expect("a yaw of 3 is accepted, half of it taken",
           is_next(log, TRACK_ACCEPTED, 0x3D3851EC) && at->x[2] == 1.5f && at->p[2] == 50.0f);
    expect("then half of a soft one of 2.5",
           is_next(log, TRACK_ACCEPTED, 0x3C23D70A) && at->x[2] == 2.0f && at->p[2] == 25.0f);
    expect("a prediction is done", is_done(log) && at->x[0] == 42.75f && at->x[1] == -0.5f);
    expect("the velocity is (6, 0) then", at->x[3] == 6.0f && at->x[4] == 0.0f && at->p[3] == 50.25f);
    expect("a speed of 6 is done, and keeps it", is_done(log) && at->x[3] == 6.0f && at->p[3] < 1.0f);
    expect("a bias is done", is_done(log) && at->x[5] > 0.99f && at->x[5] < 1.0f && at->x[6] == 0.0f);
}

static void replay_marks(reading *log) {
    const struct track_filter_numbers *at = &log->replayer.filter.numbers;
    const struct track_filter_counts *counts = &log->replayer.filter.counts;
    expect("zupt stands still", is_done(log) && at->x[3] == 0.0f && at->p[3] == 2.0f && at->p[4] == 2.0f);
    expect("lock_position has variances of 1", is_done(log) && at->p[0] == 1.0f && at->p[1] == 1.0f);
    expect("lock_yaw has one of 0.001", is_done(log) && at->p[2] == 0.001f);
    expect("skip_prediction raises them by 1e-6", is_done(log) && at->p[0] == 1.0f + 1e-6f);
    expect("the tallies are 1, 1, 1 and 2", counts->accepted_position == 1 && counts->rejected_position == 1 &&
                                                counts->accepted_velocity == 1 && counts->accepted_yaw == 2);
    expect("reset_gate_stats sets them to 0",
           is_done(log) && !counts->accepted_position && !counts->rejected_position &&
               !counts->accepted_velocity && !counts->accepted_yaw);
    expect("the NIS is that of one fix", at->nis_position_sum == 32.0f && counts->nis_position_count == 1);
    expect("reset_nis_stats sets it to 0",
           is_done(log) && at->nis_position_sum == 0.0f && !counts->nis_position_count);
}

static void writing_each_kind(void) {
    uint8_t buf[256];
    track_writer writer = {buf, sizeof buf, 0}, full = {buf, 3, 0};
    reading log;
    expect("no record fits into 3 bytes", write_each(&full) == 0 && full.used == 0);
    expect("records of each kind are written", write_each(&writer) == 17);
    expect("they have 158 bytes", writer.used == 158);
    track_replay_begin(&log.replayer);
    log.rest = buf;
    log.length = writer.used;
    replay_measurements(&log);
    replay_marks(&log);
    expect("a fix that is NaN is a line with 1", is_number(next(&log), TRACK_TURN_LINE, TRACK_NOT_FINITE));
    expect("then the log ends", is_number(next(&log), TRACK_TURN_END, 0) && log.length == 0);
}

/* A log of a car that comes to (1.5, -1.25), a velocity of (17, -5) and a heading of 1.5, and turns; its edition is left out
 * where that is 0. */
static uint64_t write_turn(uint8_t *buf, uint64_t buf_length, track_edition edition) {
    track_writer writer = {buf, buf_length, 0};
    track_config config = track_config_default();
    config.q_acc = 1.0f;
    config.r_pos = config.r_vel = config.r_yaw = 100.0f;
    track_write_config(&writer, config);
    if (edition != 0) track_write_edition(&writer, edition);
    track_write_position(&writer, 3.0f, -2.5f);
    track_write_velocity(&writer, 34.0f, -10.0f);
    track_write_yaw(&writer, 3.0f);
    track_write_predict(&writer, 2.0f, 4.0f, 1.3f, 0.2f);
    return writer.used;
}

#define TURN_REST " 3FE147AE 418B3333 C0866666 00000000 00000000\n" \
                  "p 42480A3D 42480A3D 42480034 424828F6 424828F6 3F800696 3F800696\n"

/* The listings of that log by each edition. */
static void editions_of_logs(void) {
    uint8_t buf[128];
    expect("a log without an edition has 79 bytes", write_turn(buf, sizeof buf, 0) == 79);
    expect("its car turns by the first one",
           is_listed(buf, 79, "1 1 D\n2 3 A 3D9C28F6\n3 4 D\n4 6 A 3D3851EC\n5 2 D\nx 4012DE80 400C6230" TURN_REST));
    expect("with the first one it has 83", write_turn(buf, sizeof buf, TRACK_EDITION_FIRST) == 83);
    expect("and a line more",
           is_listed(buf, 83, "1 1 D\n2 10 D\n3 3 A 3D9C28F6\n4 4 D\n5 6 A 3D3851EC\n6 2 D\nx 4012DE80 400C6230" TURN_REST));
    expect("with the second one it has 83 too", write_turn(buf, sizeof buf, TRACK_EDITION_SECOND) == 83);
    expect("of them 4 are the record's", memcmp(buf + 31, "\x0A\x01\x00\x02", 4) == 0);
    expect("and its car turns by the second",
           is_listed(buf, 83, "1 1 D\n2 10 D\n3 3 A 3D9C28F6\n4 4 D\n5 6 A 3D3851EC\n6 2 D\nx 409FB705 BFE64DFF" TURN_REST));
}

/* The same log one record at a time: which edition the replayer has, and a prediction by it. */
static void edition_by_records(void) {
    uint8_t buf[128];
    reading log, again;
    track_filter whole, stays;
    int kept = 1;
    log.length = write_turn(buf, sizeof buf, TRACK_EDITION_SECOND);
    log.rest = buf;
    track_replay_log(buf, log.length, &whole);
    track_replay_begin(&log.replayer);
    expect("a replayer begins with the first edition", log.replayer.edition == TRACK_EDITION_FIRST);
    log.replayer.edition = 7;
    expect("a configuration sets it", is_done(&log) && log.replayer.edition == TRACK_EDITION_FIRST);
    expect("an edition too", is_done(&log) && log.replayer.edition == TRACK_EDITION_SECOND);
    for (int i = 0; i < 3; i++)
        kept &= next(&log).kind == TRACK_TURN_LINE && log.replayer.edition == TRACK_EDITION_SECOND;
    expect("no other record does", kept);
    again = log;
    stays = log.replayer.filter;
    expect("the car turns by it", is_done(&log) && memcmp(&log.replayer.filter, &whole, sizeof whole) == 0);
    expect("a second edition is a stop, and sets nothing",
           is_number(track_replay_next(&log.replayer, buf + 31, 4), TRACK_TURN_STOP, TRACK_STOP_PLACE) &&
               log.replayer.edition == TRACK_EDITION_SECOND);
    expect("nor does the end", is_number(next(&log), TRACK_TURN_END, 0) && log.replayer.edition == TRACK_EDITION_SECOND);

    log = again;
    log.replayer.edition = 3;
    expect("by edition 3 a prediction is a line with 2", is_number(next(&log), TRACK_TURN_LINE, TRACK_OUT_OF_RANGE));
    expect("that changes nothing",
           log.replayer.edition == 3 && memcmp(&log.replayer.filter, &stays, sizeof stays) == 0);
    memcpy(buf + 67, "\x00\x00\xC0\x7F", 4);
    again.replayer.edition = 3;
    expect("one of NaN is a line with 1", is_number(next(&again), TRACK_TURN_LINE, TRACK_NOT_FINITE));
}

/* The stop of document 01's configuration and these bytes behind it. */
static track_stop stop_behind(const char *bytes, uint64_t length) {
    uint8_t buf[64];
    track_filter filter;
    memcpy(buf, log_bytes, 31);
    memcpy(buf + 31, bytes, length);
    return track_replay_log(buf, 31 + length, &filter);
}

/* What of an edition stops the reader, and which comes first. */
static void editions_that_stop(void) {
    static const uint8_t first[] = {0x0A, 0x01, 0x00, 0x01};
    track_filter filter;
    expect("an edition is no first record: 10", track_replay_log(first, sizeof first, &filter) == TRACK_STOP_PLACE);
    expect("nor a third one", stop_behind("\x0A\x01\x00\x01\x0A\x01\x00\x01", 8) == TRACK_STOP_PLACE);
    expect("also if it is unknown", stop_behind("\x08\x01\x00\x01\x0A\x01\x00\x07", 8) == TRACK_STOP_PLACE);
    expect("as the second one editions 0 and 3 are unknown: 8", stop_behind("\x0A\x01\x00\x00", 4) == TRACK_STOP_UNKNOWN &&
                                                                    stop_behind("\x0A\x01\x00\x03", 4) == TRACK_STOP_UNKNOWN);
    expect("two bytes are too long: 9", stop_behind("\x0A\x02\x00\x01\x01", 5) == TRACK_STOP_LENGTH);
    expect("before they are cut", stop_behind("\x0A\x02\x00\x01", 4) == TRACK_STOP_LENGTH);
    expect("without its byte it is cut: 7", stop_behind("\x0A\x01\x00", 3) == TRACK_STOP_CUT);
    expect("so it is as the third one", stop_behind("\x08\x01\x00\x01\x0A\x01\x00", 7) == TRACK_STOP_CUT);
}

/* A NaN that signals and a zero with a sign, behind what the buffer already holds. */
static void writing_bits(void) {
    static const uint8_t wanted[] = {0xEE, 0x03, 0x08, 0x00, 0x45, 0x23, 0xA1, 0x7F, 0x00, 0x00, 0x00, 0x80};
    static const uint32_t bits[2] = {0x7FA12345, 0x80000000};
    uint8_t buf[sizeof wanted] = {0xEE};
    track_writer writer = {buf, sizeof buf, 1};
    float floats[2];
    memcpy(floats, bits, sizeof floats);
    expect("a fix of a NaN and -0 is written", track_write_position(&writer, floats[0], floats[1]) == TRACK_WRITTEN);
    expect("with their bits", writer.used == sizeof wanted && memcmp(buf, wanted, sizeof wanted) == 0);
}

/* Whether a record, `length` times `byte`, is refused behind a used length in a buffer of 10, and nothing is written. */
static int is_refused(uint32_t tag, uint64_t length, uint8_t byte, uint64_t used, track_written number) {
    uint8_t buf[10], stays[10], payload[32];
    track_writer writer = {buf, sizeof buf, used};
    memset(buf, 0xEE, sizeof buf);
    memset(stays, 0xEE, sizeof stays);
    memset(payload, byte, sizeof payload);
    return track_write_record(&writer, tag, payload, length) == number && writer.used == used &&
           memcmp(buf, stays, sizeof buf) == 0;
}

static void writing_refused(void) {
    const uint64_t beyond = UINT64_C(1) << 32;
    uint8_t buf[10];
    track_writer writer = {buf, sizeof buf, 0};
    expect("tags 0 and 11 are unknown",
           is_refused(0, 4, 0, 0, TRACK_WRITE_UNKNOWN) && is_refused(11, 1, 1, 0, TRACK_WRITE_UNKNOWN));
    expect("so is 261, though its low byte is 5", is_refused(261, 4, 0, 0, TRACK_WRITE_UNKNOWN));
    expect("a speed has 4 bytes", is_refused(5, 3, 0, 0, TRACK_WRITE_LENGTH) && is_refused(5, 5, 0, 0, TRACK_WRITE_LENGTH));
    expect("marks 0 and 7 are unknown",
           is_refused(8, 1, 0, 0, TRACK_WRITE_UNKNOWN) && is_refused(8, 1, 7, 0, TRACK_WRITE_UNKNOWN));
    expect("so are editions 0 and 3",
           is_refused(10, 1, 0, 0, TRACK_WRITE_UNKNOWN) && is_refused(10, 1, 3, 0, TRACK_WRITE_UNKNOWN));
    expect("an edition has a byte", is_refused(10, 0, 1, 0, TRACK_WRITE_LENGTH) && is_refused(10, 2, 1, 0, TRACK_WRITE_LENGTH));
    expect("11 used bytes are beyond 10", is_refused(5, 4, 0, 11, TRACK_WRITE_USED));
    expect("so are more than 32 bits say", is_refused(5, 4, 0, beyond, TRACK_WRITE_USED));
    expect("behind 4 a speed does not fit", is_refused(5, 4, 0, 4, TRACK_WRITE_FULL));
    expect("nor behind 10", is_refused(5, 4, 0, 10, TRACK_WRITE_FULL));
    expect("nor an edition behind 7", is_refused(10, 1, 1, 7, TRACK_WRITE_FULL));
    expect("the tag is tested before the used length", is_refused(11, 1, 1, 11, TRACK_WRITE_UNKNOWN));
    expect("so is the length, before the mark too", is_refused(8, 2, 7, 11, TRACK_WRITE_LENGTH));
    expect("and the mark", is_refused(8, 1, 7, 11, TRACK_WRITE_UNKNOWN));
    expect("and the edition, its length before it",
           is_refused(10, 1, 3, 11, TRACK_WRITE_UNKNOWN) && is_refused(10, 2, 3, 11, TRACK_WRITE_LENGTH));
    expect("edition 257 is not written as 1", track_write_edition(&writer, 257) == TRACK_WRITE_UNKNOWN && writer.used == 0);
}

/* What a writer leaves to the reader. */
static void writing_untested(void) {
    uint8_t buf[64];
    track_writer fix = {buf, sizeof buf, 0}, twice = fix, edition = fix, bad = fix;
    track_config config = track_config_default();
    track_filter filter;
    expect("a fix is written as the first record", track_write_position(&fix, 80.0f, 0.0f) == TRACK_WRITTEN);
    expect("and stops the reader with 10", track_replay_log(buf, fix.used, &filter) == TRACK_STOP_PLACE);
    expect("two configurations are written",
           track_write_config(&twice, config) == TRACK_WRITTEN && track_write_config(&twice, config) == TRACK_WRITTEN);
    expect("and stop it with 10", twice.used == 62 && track_replay_log(buf, twice.used, &filter) == TRACK_STOP_PLACE);
    expect("an edition is written as the first record", track_write_edition(&edition, TRACK_EDITION_FIRST) == TRACK_WRITTEN);
    expect("and stops it with 10", track_replay_log(buf, edition.used, &filter) == TRACK_STOP_PLACE);
    config.r_pos = 0.0f;
    expect("a configuration out of range is written", track_write_config(&bad, config) == TRACK_WRITTEN);
    expect("and stops it with 3", track_replay_log(buf, bad.used, &filter) == TRACK_STOP_CONFIGURATION);
}

/* An empty summary but for one count: that of a bucket, or behind them that of the rejections. */
enum { REJECTIONS = 128 };
static track_summary with_count(uint32_t place, uint32_t count) {
    track_summary summary = track_summary_empty();
    *(place < REJECTIONS ? &summary.buckets[place] : &summary.rejections) = count;
    return summary;
}

static int is_same(track_summary one, track_summary other) { return memcmp(&one, &other, sizeof one) == 0; }

static track_number add(track_summary *summary, track_verdict verdict, float gate_value) {
    const track_outcome outcome = {TRACK_ANSWERED, verdict, gate_value};
    return track_summary_add_outcome(summary, outcome);
}

/* Whether a verdict raises one count by one, and no other. */
static int is_counted(track_verdict verdict, float gate_value, uint32_t place) {
    track_summary summary = with_count(place, 6);
    return add(&summary, verdict, gate_value) == TRACK_ANSWERED && is_same(summary, with_count(place, 7));
}

/* Whether a verdict is refused with this number, and no count is raised. */
static int is_uncounted(track_verdict verdict, float gate_value, track_number number) {
    track_summary summary = track_summary_empty();
    return add(&summary, verdict, gate_value) == number && is_same(summary, track_summary_empty());
}

static float float_of(uint32_t bits) {
    float number;
    memcpy(&number, &bits, sizeof number);
    return number;
}

/* The edges of the buckets, and what is no gate value. */
static void buckets(void) {
    const float above = float_of(0x42000001);
    int lowest = 1, highest = 1;
    for (uint32_t k = 0; k < 128; k++) {
        const float begin = track_bucket_begin(k);
        lowest &= begin == (float)k * 0.25f && is_counted(TRACK_ACCEPTED, begin, k);
        highest &= k == 0 || is_counted(TRACK_ACCEPTED, float_of(bits_of(begin) - 1), k - 1);
    }
    expect("bucket k begins with k/4", lowest);
    expect("what is below it goes into the one before", highest);
    expect("32.0 goes into bucket 127", is_counted(TRACK_ACCEPTED, 32.0f, 127));
    expect("0.5 into bucket 2", is_counted(TRACK_ACCEPTED, 0.5f, 2));
    expect("-0 into bucket 0", is_counted(TRACK_ACCEPTED, -0.0f, 0));
    expect("an accepted value above 32.0 is refused with 2", is_uncounted(TRACK_ACCEPTED, above, TRACK_OUT_OF_RANGE));
    expect("a rejected one has a count of its own", is_counted(TRACK_REJECTED, above, REJECTIONS));
    expect("whatever its size", is_counted(TRACK_REJECTED, 0.5f, REJECTIONS) && is_counted(TRACK_REJECTED, 1e9f, REJECTIONS));
    expect("a negative value is refused with 2", is_uncounted(TRACK_ACCEPTED, -0.5f, TRACK_OUT_OF_RANGE) &&
                                                     is_uncounted(TRACK_REJECTED, -0.5f, TRACK_OUT_OF_RANGE));
    expect("an infinity with 1", is_uncounted(TRACK_ACCEPTED, INFINITY, TRACK_NOT_FINITE) &&
                                     is_uncounted(TRACK_REJECTED, -INFINITY, TRACK_NOT_FINITE));
    expect("what is done has no gate value: 2", is_uncounted(TRACK_DONE, 0.5f, TRACK_OUT_OF_RANGE));
    expect("with NaN it is 1, as with any verdict", is_uncounted(TRACK_DONE, NAN, TRACK_NOT_FINITE) &&
                                                        is_uncounted(TRACK_ACCEPTED, NAN, TRACK_NOT_FINITE));
}

static void merges(void) {
    track_summary day = with_count(2, 5), other = with_count(REJECTIONS, 3), last = with_count(2, UINT32_MAX), stays;
    const track_summary empty = track_summary_empty();
    day.buckets[127] = UINT32_MAX - 1;
    stays = day;

    track_summary_merge_with(&day, &empty);
    expect("an empty summary adds nothing", is_same(day, stays));
    track_summary_merge_with(&day, &other);
    stays.rejections = 3;
    expect("rejections are added", is_same(day, stays));
    expect("the other stays", is_same(other, with_count(REJECTIONS, 3)));
    track_summary_merge_with(&day, &day);
    expect("with itself each count is doubled", day.buckets[2] == 10 && day.rejections == 6);
    expect("and stops at 4,294,967,295", day.buckets[127] == UINT32_MAX);
    expect("there it stands still, and is answered", add(&last, TRACK_ACCEPTED, 0.5f) == TRACK_ANSWERED);
    expect("and no other is raised", is_same(last, with_count(2, UINT32_MAX)));
}

static void print_summary(const track_summary *summary) {
    for (uint32_t k = 0; k < 128; k++) {
        if (summary->buckets[k] == 0) continue;
        printf("  (from %5.2f on: %u)\n", (double)track_bucket_begin(k), (unsigned)summary->buckets[k]);
    }
    printf("  (rejected: %u)\n", (unsigned)summary->rejections);
}

/* A summary beside the filter: K1, a fix where the car then is, one far off, one that is NaN, and a velocity. */
static void summary_beside(void) {
    track_config config = track_config_default();
    track_filter filter;
    track_summary summary = track_summary_empty(), wanted = with_count(127, 1);
    config.r_pos = 100.0f;
    track_with_config(&filter, config);
    wanted.buckets[0] = wanted.rejections = 1;

    expect("K1 is counted", track_summary_add_outcome(&summary, track_update_position(&filter, 80.0f, 0.0f)) == TRACK_ANSWERED);
    expect("in bucket 127", is_same(summary, with_count(127, 1)));
    expect("so is a fix where the car is",
           track_summary_add_outcome(&summary, track_update_position(&filter, 40.0f, 0.0f)) == TRACK_ANSWERED);
    expect("and one far off",
           track_summary_add_outcome(&summary, track_update_position(&filter, 1000.0f, 0.0f)) == TRACK_ANSWERED);
    expect("in bucket 0 and as a rejection", is_same(summary, wanted));
    expect("one that is NaN was refused with 1, and so it is here",
           track_summary_add_outcome(&summary, track_update_position(&filter, NAN, 0.0f)) == TRACK_NOT_FINITE);
    filter.numbers.config.r_pos = 0.0f;
    expect("with r_pos 0 it is 3",
           track_summary_add_outcome(&summary, track_update_position(&filter, 80.0f, 0.0f)) == TRACK_BAD_PARAMETER);
    expect("a velocity has no verdict: 2",
           track_summary_add_outcome(&summary, track_update_velocity(&filter, 0.0f, 0.0f)) == TRACK_OUT_OF_RANGE);
    expect("none of these is counted", is_same(summary, wanted));
    print_summary(&summary);
}

/* Whether a log is summarized up to this stop, over whatever is there. */
static int is_summarized(const uint8_t *log, uint64_t log_length, track_stop stop, track_summary wanted) {
    track_summary summary;
    memset(&summary, 0xEE, sizeof summary);
    return track_summarize_log(log, log_length, &summary) == stop && is_same(summary, wanted);
}

/* Logs of one record of each kind, and what is cut of them: of the verdicts only those of position count. */
static void summaries_of_logs(void) {
    uint8_t buf[256];
    track_writer writer = {buf, sizeof buf, 0};
    track_summary both = with_count(127, 1), day, other;
    both.rejections = 1;
    write_each(&writer);
    expect("document 01's log has one value in bucket 127",
           is_summarized(log_bytes, sizeof log_bytes, TRACK_READ_WHOLE, with_count(127, 1)));
    expect("that of each record has a rejection more", is_summarized(buf, writer.used, TRACK_READ_WHOLE, both));
    expect("cut in its last record it has the same", is_summarized(buf, writer.used - 1, TRACK_STOP_CUT, both));
    expect("cut in the rejected one it has none", is_summarized(buf, 56, TRACK_STOP_CUT, with_count(127, 1)));
    expect("a log without a configuration has an empty summary",
           is_summarized(log_bytes, 30, TRACK_STOP_CUT, track_summary_empty()));
    expect("so has one that begins with a fix", is_summarized(log_bytes + 31, 11, TRACK_STOP_PLACE, track_summary_empty()));
    expect("and an empty log", is_summarized(log_bytes, 0, TRACK_READ_WHOLE, track_summary_empty()));

    track_summarize_log(log_bytes, sizeof log_bytes, &day);
    track_summarize_log(buf, writer.used, &other);
    track_summary_merge_with(&day, &other);
    both.buckets[127] = 2;
    expect("a day of both logs has two values there, and the rejection", is_same(day, both));

    writer.used = 31;
    track_write_position(&writer, NAN, 0.0f);
    track_write_position(&writer, 80.0f, 0.0f);
    expect("a refused fix is not counted, the one behind it is",
           is_summarized(buf, writer.used, TRACK_READ_WHOLE, with_count(127, 1)));
}

int main(void) {
    expect("floats round to nearest and keep subnormal numbers", track_float_environment_ok());
    fixes();
    tunnel();
    yaws();
    motion();
    editions();
    accelerations();
    rates();
    low_pass();
    log_sample();
    log_by_records();
    writing_sample();
    writing_each_kind();
    editions_of_logs();
    edition_by_records();
    editions_that_stop();
    writing_bits();
    writing_refused();
    writing_untested();
    buckets();
    merges();
    summary_beside();
    summaries_of_logs();
    return wrong != 0;
}
