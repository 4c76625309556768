// Streams near the limit of 4,000,000,000 bytes: read, held against what they must be, written again in both
// containers and read back. Prints the times and the most memory that was used.
#include "common.h"
#include <sys/resource.h>

enum { PATTERN = 1 << 20, SLOTS = 1 << 20 };

static uint8_t pattern[PATTERN];

// Writes bytes at a place, or holds what is there against them.
struct cursor {
    uint8_t *bytes;
    size_t at;
    bool writes;
};

static void pass(struct cursor *c, const uint8_t *bytes, size_t n) {
    if (c->writes)
        memcpy(c->bytes + c->at, bytes, n);
    else if (memcmp(c->bytes + c->at, bytes, n))
        stop("other bytes than expected");
    c->at += n;
}

static void pass_obu(struct cursor *c, uint8_t type, size_t size) {
    uint8_t head[12] = {(uint8_t)(type << 3 | 2)};
    size_t n = 1;
    for (size_t v = size;; v >>= 7) {
        head[n++] = (uint8_t)(v >= 128 ? v % 128 + 128 : v);
        if (v < 128) break;
    }
    pass(c, head, n);
    for (size_t left = size; left;) {
        size_t part = left < PATTERN ? left : PATTERN;
        pass(c, pattern, part);
        left -= part;
    }
}

// `count` units: a delimiter, metadata of 100 bytes and a second delimiter if `stray`, and a frame. The units that are
// read have no second delimiter.
static size_t pass_units(struct cursor *c, size_t count, size_t size, bool stray, bool as_read) {
    for (size_t i = 0; i < count; i++) {
        pass_obu(c, DELIMITER, 0);
        if (stray) pass_obu(c, METADATA, 100);
        if (stray && !as_read) pass_obu(c, DELIMITER, 0);
        pass_obu(c, FRAME, size);
    }
    return c->at;
}

static double since(double *t) {
    double now = seconds(), took = now - *t;
    *t = now;
    return took;
}

static void shape(const char *name, uint8_t *a, uint8_t *b, uint8_t *c, size_t room, size_t count, size_t size, bool stray) {
    static uint32_t ends[SLOTS], again[SLOTS];
    size_t len = pass_units(&(struct cursor){a, 0, true}, count, size, stray, false);
    double t = seconds();
    size_t n = split_obu_stream(a, len, b, room, ends, SLOTS);
    double read = since(&t);
    if (n != count) stop("other units than expected");
    size_t bytes = pass_units(&(struct cursor){b, 0, false}, count, size, stray, true);
    if (ends[n - 1] != bytes) stop("another end than expected");
    since(&t);
    size_t k = bench_write_obu_stream(b, bytes, ends, n, c, room);
    double write = since(&t);
    if (k != bytes || memcmp(b, c, bytes)) stop("written otherwise");
    since(&t);
    size_t m = bench_write_annexb(b, bytes, ends, n, c, room);
    double write_annexb = since(&t);
    if (!m) stop("no Annex B");
    if (bench_split_annexb(c, m, a, room, again, SLOTS) != n) stop("Annex B has other units");
    double read_annexb = since(&t);
    if (memcmp(a, b, bytes) || memcmp(ends, again, n * sizeof *ends)) stop("Annex B is read otherwise");
    struct rusage use;
    getrusage(RUSAGE_SELF, &use);
    printf("%-28s %12zu %8zu %8.2f %8.2f %8.2f %8.2f %8.2f\n", name, len, n, read, write, write_annexb, read_annexb,
           use.ru_maxrss * 1024 / 1e9);
    fflush(stdout);
}

int main(void) {
    size_t room = 3901000000;
    uint8_t *a = lend(room), *b = lend(room), *c = lend(room);
    for (size_t i = 0; i < PATTERN; i++) pattern[i] = (uint8_t)(i * 2654435761u >> 13);
    printf("%-28s %12s %8s %8s %8s %8s %8s %8s\n", "shape", "bytes", "units", "read s", "write s", "write b", "read b", "peak GB");
    shape("frames of 50 KB", a, b, c, room, 77990, 50000, false);
    shape("stray delimiters, 4 MB", a, b, c, room, 974, 4000000, true);
    shape("one frame of 3.9 GB", a, b, c, room, 1, 3900000000, false);
    return 0;
}
