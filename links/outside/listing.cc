// Writes the listing of the log on its standard input, with one record of it in memory at a time:
//     c++ -o listing listing.cc $(pkg-config --cflags --libs track)
//     ./listing <LOG
#include <cstdio>
#include <cstring>
#include <track.h>

namespace {

class Record {
public:
    // Of a log that ends here nothing is left, and of one that is cut less than a record.
    void read() {
        length = std::fread(bytes, 1, 3, stdin);
        if (length == 3) length += std::fread(bytes + 3, 1, track_record_length(bytes) - 3, stdin);
    }
    unsigned tag() const { return bytes[0]; }
    track_turn turn(track_replayer &replayer) const { return track_replay_next(&replayer, bytes, length); }

private:
    uint8_t bytes[3 + 65535];
    uint64_t length;
};

Record record;

unsigned bits_of(float number) {
    uint32_t bits;
    std::memcpy(&bits, &number, sizeof bits);
    return bits;
}

void print_line(unsigned number, unsigned tag, const track_turn &turn) {
    std::printf("%u %u ", number, tag);
    if (turn.number != TRACK_ANSWERED) std::printf("%u\n", static_cast<unsigned>(turn.number));
    else if (turn.verdict == TRACK_ACCEPTED) std::printf("A %08X\n", bits_of(turn.gate_value));
    else if (turn.verdict == TRACK_REJECTED) std::printf("R %08X\n", bits_of(turn.gate_value));
    else std::puts("D");
}

void print_row(const char *name, const float (&numbers)[7]) {
    std::printf("%s", name);
    for (const float number : numbers) std::printf(" %08X", bits_of(number));
    std::puts("");
}

}  // namespace

int main() {
    track_replayer replayer;
    track_replay_begin(&replayer);
    for (bool going = true; going;) {
        const unsigned number = replayer.number;
        record.read();
        const track_turn turn = record.turn(replayer);
        going = turn.kind == TRACK_TURN_LINE;
        if (turn.kind == TRACK_TURN_STOP) std::printf("stop %u %u\n", number, static_cast<unsigned>(turn.number));
        else if (going) print_line(number, record.tag(), turn);
    }
    if (replayer.number > 1) {
        print_row("x", replayer.filter.numbers.x);
        print_row("p", replayer.filter.numbers.p);
    }
}
