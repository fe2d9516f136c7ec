/* A `read` to load before the C library's: it answers by the words of TRACK_READS, one a call, and by the last of them from then
 * on. A number reads at most so many bytes; EINTR and EIO fail with that error. */
struct part {
    void *at;
    unsigned long length;
};

char *getenv(const char *name);
long strtol(const char *text, char **end, int base);
int strncmp(const char *a, const char *b, unsigned long length);
long readv(int fd, const struct part *parts, int count);
int *__errno_location(void);

static long failed(int error) {
    *__errno_location() = error;
    return -1;
}

long read(int fd, void *buffer, unsigned long length) {
    static const char *word;
    const char *given = word ? word : getenv("TRACK_READS"), *next = given;
    while (*next && *next != ' ') next++;
    word = *next ? next + 1 : given;
    if (strncmp(given, "EINTR", 5) == 0) return failed(4);
    if (strncmp(given, "EIO", 3) == 0) return failed(5);
    const unsigned long most = (unsigned long)strtol(given, 0, 10);
    const struct part part = {buffer, length < most ? length : most};
    return readv(fd, &part, 1);
}
