/* Calls each function of track.h with numbers where the exports are these, which write down what they are called with, and
 * those that give a verdict with each kind of answer. `links/names --calls c` makes the calls from docs/boundary.txt, and
 * `links/names --told c` holds the lines to it. */
#include <stdio.h>

#include "track.h"

static const char *name = "";

static uint32_t told(const char *function, const float *arguments, int count, const uint32_t *words, int word_count) {
    printf("%s %s", name, function);
    for (int i = 0; i < count; i++) printf(" %g", (double)arguments[i]);
    for (int i = 0; i < word_count; i++) printf(" %u", (unsigned)words[i]);
    printf("\n");
    return 0;
}

static uint32_t told_operation(const char *function, uint32_t operation, const float *arguments, int count,
                               const uint32_t *words, int word_count) {
    char numbered[32];
    snprintf(numbered, sizeof numbered, "%s %u", function, (unsigned)operation);
    return told(numbered, arguments, count, words, word_count);
}

/* How a call on a record and the turn of a record are answered: a number and, if it is 0, a kind; 1 and 2 have a gate value. */
static uint32_t answer_number = 0, answer_kind = 0;
static float answer_gate_value = 0;

static uint32_t answered(float values[2], uint32_t shown[4]) {
    if (answer_number != 0) return answer_number;
    shown[0] = answer_kind;
    if (answer_kind == 1 || answer_kind == 2) values[0] = answer_gate_value;
    return 0;
}

uint32_t track_float(uint32_t operation, float argument, float answer[1]) {
    (void)answer;
    return told_operation("float", operation, &argument, 1, 0, 0);
}

uint32_t track_trig(uint32_t operation, float a, float b, float answer[1]) {
    const float arguments[2] = {a, b};
    (void)answer;
    return told_operation("trig", operation, arguments, 2, 0, 0);
}

#define COMPONENT(function)                                                                                  \
    uint32_t track_##function(uint32_t operation, float *numbers, uint32_t *counts, const float *arguments,  \
                              const uint32_t *words, float *values, uint32_t *shown) {                       \
        (void)numbers, (void)counts;                                                                         \
        told_operation(#function, operation, arguments, 6, words, 4);                                        \
        return answered(values, shown);                                                                      \
    }

uint32_t track_blend(float imu, uint32_t has_gps, float gps, float confidence, const float weights[3], float values[2]) {
    const float arguments[6] = {imu, gps, confidence, weights[0], weights[1], weights[2]};
    (void)values;
    return told("blend", arguments, 6, &has_gps, 1);
}

uint64_t track_list(const uint8_t *log, uint64_t log_length, uint8_t *out, uint64_t out_length) {
    const uint32_t lengths[2] = {(uint32_t)log_length, (uint32_t)out_length};
    (void)log, (void)out;
    return told("list", 0, 0, lengths, 2);
}

uint32_t track_replay(const uint8_t *log, uint64_t log_length, float numbers[25], uint32_t counts[10]) {
    const uint32_t length = (uint32_t)log_length;
    (void)log, (void)numbers, (void)counts;
    return told("replay", 0, 0, &length, 1);
}

/* Both words are raised: the next call shows whether they were kept. */
uint32_t track_replay_record(const uint8_t *bytes, uint64_t bytes_length, uint32_t replay[2], float numbers[25],
                             uint32_t counts[10], float values[2], uint32_t shown[4]) {
    const uint32_t words[3] = {(uint32_t)bytes_length, replay[0], replay[1]};
    (void)bytes, (void)numbers, (void)counts;
    told("replay_record", 0, 0, words, 3);
    replay[0]++;
    replay[1] += 5;
    return answered(values, shown);
}

uint32_t track_append(uint8_t *buf, uint64_t buf_length, uint64_t used[1], uint32_t tag, const uint8_t *payload,
                      uint64_t payload_length) {
    uint32_t words[4 + 28] = {tag, buf[0], (uint32_t)buf_length, (uint32_t)used[0]};
    for (uint64_t i = 0; i < payload_length; i++) words[4 + i] = payload[i];
    return told("append", 0, 0, words, 4 + (int)payload_length);
}

/* Of a summary its ends are told. */
uint32_t track_summary_add(uint32_t summary[129], uint32_t verdict, float value) {
    const uint32_t words[3] = {verdict, summary[0], summary[128]};
    return told("summary_add", &value, 1, words, 3);
}

void track_summary_merge(uint32_t summary[129], const uint32_t other[129]) {
    const uint32_t words[4] = {summary[0], summary[128], other[0], other[128]};
    told(summary == other ? "summary_merge of one summary" : "summary_merge", 0, 0, words, 4);
}

uint32_t track_summarize(const uint8_t *log, uint64_t log_length, uint32_t summary[129]) {
    const uint32_t words[2] = {log[0], (uint32_t)log_length};
    (void)summary;
    return told("summarize", 0, 0, words, 2);
}

/* Compiles if the word of a record stands at its place. */
#define AT(record, word, place) extern char stands[offsetof(record, word) == 4 * (place) ? 1 : -1];

#define CALL(call) (name = #call, (void)(call))

/* Writes down what a call gives that is answered so. */
#define GIVES(begin, type, call, said, kind, value)                                                                    \
    do {                                                                                                               \
        name = begin, answer_number = said, answer_kind = kind, answer_gate_value = value;                             \
        const type given = call;                                                                                       \
        printf("%s gives %u %u %.1f\n", name, (unsigned)given.number, (unsigned)given.verdict, (double)given.gate_value); \
    } while (0)

static const track_config config = {1, 2, 3, 4, 5, 6, 7};
static const track_weights weights = {4, 5, 6};
static const uint8_t log[5] = {1, 2, 3, 4, 5};
static uint8_t out[7], buf[30] = {7};
static track_replayer replayer = {8, 9, {{{0}, {0}, {0, 0, 0, 0, 0, 0, 0}, 0, 0, 0, 0}, {0, 0, 0, 0, 0, 0, 0, 0, 0, 0}}};
static track_replayer begun;
static track_writer writer = {buf, 30, 9};
static track_summary summary = {{3}, 4};
static const track_summary other = {{6}, 7};

static track_outcome outcome(track_number number, track_verdict verdict, float gate_value) {
    const track_outcome given = {number, verdict, gate_value};
    return given;
}

#include "calls.inc"

int main(void) {
    track_replay_begin(&begun);
    all();
    return 0;
}
