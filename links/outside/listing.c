/* Writes the listing of the log on its standard input, with one record of it in memory at a time:
 *     cc -o listing listing.c $(pkg-config --cflags --libs track)
 *     ./listing <LOG */
#include <stdio.h>
#include <string.h>
#include <track.h>

static uint8_t record[3 + 65535];

static uint64_t next_record(void) {
    uint64_t length = fread(record, 1, 3, stdin);
    if (length == 3) length += fread(record + 3, 1, track_record_length(record) - 3, stdin);
    return length;
}

static unsigned bits_of(float number) {
    uint32_t bits;
    memcpy(&bits, &number, sizeof bits);
    return bits;
}

static void print_line(uint32_t number, track_turn turn) {
    printf("%u %u ", (unsigned)number, (unsigned)record[0]);
    if (turn.number != TRACK_ANSWERED) printf("%u\n", (unsigned)turn.number);
    else if (turn.verdict == TRACK_ACCEPTED) printf("A %08X\n", bits_of(turn.gate_value));
    else if (turn.verdict == TRACK_REJECTED) printf("R %08X\n", bits_of(turn.gate_value));
    else puts("D");
}

static void print_row(const char *name, const float numbers[7]) {
    printf("%s", name);
    for (int i = 0; i < 7; i++) printf(" %08X", bits_of(numbers[i]));
    puts("");
}

int main(void) {
    track_replayer replayer;
    track_turn turn;
    track_replay_begin(&replayer);
    do {
        const uint32_t number = replayer.number;
        turn = track_replay_next(&replayer, record, next_record());
        if (turn.kind == TRACK_TURN_LINE) print_line(number, turn);
    } while (turn.kind == TRACK_TURN_LINE);
    if (turn.kind == TRACK_TURN_STOP) printf("stop %u %u\n", (unsigned)replayer.number, (unsigned)turn.number);
    if (replayer.number > 1) {
        print_row("x", replayer.filter.numbers.x);
        print_row("p", replayer.filter.numbers.p);
    }
    return 0;
}
