/* Writes document 01's log, a configuration and a fix, to its standard output:
 *     cc -o sample sample.c $(pkg-config --cflags --libs track)
 *     ./sample >LOG */
#include <stdio.h>
#include <track.h>

static track_written write_log(track_writer *writer) {
    track_config config = track_config_default();
    config.r_pos = 100.0f;
    const track_written written = track_write_config(writer, config);
    return written == TRACK_WRITTEN ? track_write_position(writer, 80.0f, 0.0f) : written;
}

int main(void) {
    uint8_t buf[64];
    track_writer writer = {buf, sizeof buf, 0};
    const track_written written = write_log(&writer);
    if (written != TRACK_WRITTEN) {
        puts(track_write_sentence(written));
        return 1;
    }
    for (uint64_t i = 0; i < writer.used; i++) printf("%c", buf[i]);
    return 0;
}
