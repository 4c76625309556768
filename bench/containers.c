// Reading and writing both containers beside the Rust: the same inputs, turn about, the median of the rounds.
#include "common.h"

// The Rust, of oracle/server/src/timed.rs.
void *rust_split_obu_stream(const uint8_t *data, size_t len);
void *rust_split_annexb(const uint8_t *data, size_t len);
void *rust_write_obu_stream(const void *units);
void *rust_write_annexb(const void *units);
void *rust_units(const uint8_t *bytes, const uint32_t *ends, size_t n);
bool rust_units_are(const void *units, const uint8_t *bytes, const uint32_t *ends, size_t n);
bool rust_bytes_are(const void *found, const uint8_t *bytes, size_t len);
void rust_units_free(void *units);
void rust_bytes_free(void *bytes);

enum { READ_STREAM, READ_EXACT, WRITE_STREAM, READ_ANNEXB, WRITE_ANNEXB };

// Lent memory: the units that were read, what was written of them, and both in Annex B.
struct lent {
    uint8_t *units, *out, *annexb;
    uint32_t *ends;
    size_t room, slots;
};

// Reads data in one container, turn about; answers how many units there are.
static size_t read_turns(const char *shape, int job, const uint8_t *data, size_t len, struct lent *m) {
    struct turns all;
    size_t n = 0;
    bool stream = job != READ_ANNEXB;
    for (int k = 0; k < ROUNDS; k++) {
        double t = seconds();
        n = stream ? split_obu_stream(data, len, m->units, m->room, m->ends, m->slots)
                   : bench_split_annexb(data, len, m->units, m->room, m->ends, m->slots);
        all.ours[k] = seconds() - t;
        t = seconds();
        void *units = stream ? rust_split_obu_stream(data, len) : rust_split_annexb(data, len);
        all.theirs[k] = seconds() - t;
        if (!n || !units) stop("a refusal");
        if (!rust_units_are(units, m->units, m->ends, n)) stop("the Rust reads other units");
        t = seconds();
        rust_units_free(units);
        all.released[k] = all.theirs[k] + seconds() - t;
    }
    const char *name = job == READ_STREAM ? "read stream" : job == READ_EXACT ? "read, exact" : "read annexb";
    print(shape, name, &all, stream ? 0.25 : 1);
    return n;
}

// Writes n units in one container, turn about; answers how many bytes there are. A short job is done several times.
static size_t write_turns(const char *shape, int job, size_t n, struct lent *m) {
    struct turns all = {0};
    size_t len = m->ends[n - 1], bytes = 0, times = 1 + 20000000 / len;
    uint8_t *out = job == WRITE_STREAM ? m->out : m->annexb;
    void *units = rust_units(m->units, m->ends, n);
    for (size_t i = 0; i < ROUNDS * times; i++) {
        size_t k = i / times;
        double t = seconds();
        bytes = job == WRITE_STREAM ? bench_write_obu_stream(m->units, len, m->ends, n, out, m->room)
                                    : bench_write_annexb(m->units, len, m->ends, n, out, m->room);
        all.ours[k] += (seconds() - t) / times;
        t = seconds();
        void *found = job == WRITE_STREAM ? rust_write_obu_stream(units) : rust_write_annexb(units);
        double took = seconds() - t;
        if (!bytes) stop("a refusal");
        if (!rust_bytes_are(found, out, bytes)) stop("the Rust writes other bytes");
        t = seconds();
        rust_bytes_free(found);
        all.theirs[k] += took / times;
        all.released[k] += (took + seconds() - t) / times;
    }
    rust_units_free(units);
    print(shape, job == WRITE_STREAM ? "write stream" : "write annexb", &all, 1);
    return bytes;
}

static void measure(const char *shape, const struct input *in) {
    struct lent m = {.room = 3 * in->len + 64, .slots = in->len / 2 + 1};
    m.units = lend(m.room);
    m.out = lend(m.room);
    m.annexb = lend(m.room);
    m.ends = lend(m.slots * sizeof *m.ends);
    size_t n = read_turns(shape, READ_STREAM, in->bytes, in->len, &m);
    if (m.ends[n - 1] < in->len) {
        // Delimiters were dropped: lend no byte more than the units have.
        struct lent exact = m;
        exact.room = m.ends[n - 1];
        exact.slots = n;
        read_turns(shape, READ_EXACT, in->bytes, in->len, &exact);
    }
    write_turns(shape, WRITE_STREAM, n, &m);
    size_t bytes = write_turns(shape, WRITE_ANNEXB, n, &m);
    read_turns(shape, READ_ANNEXB, m.annexb, bytes, &m);
    free(m.units);
    free(m.out);
    free(m.annexb);
    free(m.ends);
}

static void shape(const char *name, size_t count, const char *types, size_t size) {
    struct input in = {.room = count * strlen(types) * (size + 10)};
    in.bytes = lend(in.room);
    put_shape(&in, count, types, size);
    measure(name, &in);
    free(in.bytes);
}

// A file's bytes, as often as they fit into 100 MB.
static void repeated(const char *path) {
    FILE *f = fopen(path, "rb");
    if (!f) stop("a stream can't be read");
    struct input in = {.room = 100000000};
    in.bytes = lend(in.room);
    size_t len = fread(in.bytes, 1, in.room, f);
    fclose(f);
    if (!len) stop("a stream is empty");
    for (in.len = len; in.len + len <= in.room; in.len += len) memcpy(in.bytes + in.len, in.bytes, len);
    const char *name = strrchr(path, '/');
    measure(name ? name + 1 : path, &in);
    free(in.bytes);
}

int main(int n, char **files) {
    print_head();
    shape("frames of 50 KB", 2000, "26", 50000);
    shape("one frame of 100 MB", 1, "26", 100000000);
    shape("empty OBUs, no frame", 1000000, "5", 0);
    shape("empty frames", 1000000, "6", 0);
    shape("delimiter, no frame", 500000, "25", 0);
    shape("units of 20 OBUs of 100", 20000, "2555555555555555555556", 100);
    shape("stray delimiters, 10", 300000, "2526", 10);
    shape("stray delimiters, 500", 100000, "2526", 500);
    shape("frames of 10", 500000, "26", 10);
    shape("frames of 100", 300000, "26", 100);
    shape("frames of 250", 300000, "26", 250);
    shape("frames of 500", 200000, "26", 500);
    shape("frames of 700", 140000, "26", 700);
    shape("frames of 1 KB", 100000, "26", 1000);
    shape("frames of 2 KB", 50000, "26", 2000);
    shape("frames of 4 KB", 25000, "26", 4000);
    shape("frames of 15 KB", 6600, "26", 15000);
    for (int i = 1; i < n; i++) repeated(files[i]);
    return 0;
}
