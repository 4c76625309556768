// Scans of frame headers beside the Rust: the same frames, turn about, the best and the middle of the rounds.
#include "common.h"

// The Rust, of oracle/server/src/timed.rs: as it is; without what trace! does; and with the slots kept aside only where a
// refusal could change them.
uint64_t rust_scan(const uint8_t *sequence, size_t sequence_len, const uint8_t *frames, size_t len, const uint32_t *ends,
                   size_t n);
uint64_t rust_scan_quiet(const uint8_t *sequence, size_t sequence_len, const uint8_t *frames, size_t len,
                         const uint32_t *ends, size_t n);
uint64_t rust_scan_quiet_few(const uint8_t *sequence, size_t sequence_len, const uint8_t *frames, size_t len,
                             const uint32_t *ends, size_t n);

enum { TURNS = 11, FRAMES = 100000, FRAME_BYTES = 256, CUTS = 40, OURS = 0, RUST = 1, QUIET = 2, FEW = 3, SIDES = 4 };

static uint64_t (*const sides[SIDES])(const uint8_t *, size_t, const uint8_t *, size_t, const uint32_t *, size_t) = {
    bench_scan, rust_scan, rust_scan_quiet, rust_scan_quiet_few};

// A sequence header's payload and frames, each cut behind FRAME_BYTES: no header of these streams is that long.
struct frames {
    uint8_t sequence[FRAME_BYTES];
    size_t sequence_len;
    struct input in;
    uint32_t *ends;
    size_t n, room;
};

static struct frames lend_frames(size_t n) {
    struct input in = {.bytes = lend(n * FRAME_BYTES), .room = n * FRAME_BYTES};
    return (struct frames){.in = in, .ends = lend(n * sizeof(uint32_t)), .room = n};
}

static void free_frames(struct frames *f) {
    free(f->in.bytes);
    free(f->ends);
}

static void put_frame(struct frames *f, const uint8_t *payload, size_t len) {
    if (f->n == f->room) stop("too many frames");
    for (size_t i = 0; i < len && i < FRAME_BYTES; i++) put(&f->in, payload[i]);
    f->ends[f->n++] = (uint32_t)f->in.len;
}

// Frame `from` and those behind it again and again, until there are FRAMES.
static struct frames repeated(const struct frames *f, size_t from) {
    struct frames all = lend_frames(FRAMES);
    memcpy(all.sequence, f->sequence, f->sequence_len);
    all.sequence_len = f->sequence_len;
    for (size_t i = 0; all.n < FRAMES; i = i + 1 < f->n ? i + 1 : from) {
        size_t start = i ? f->ends[i - 1] : 0;
        put_frame(&all, f->in.bytes + start, f->ends[i] - start);
    }
    return all;
}

// What all sides took, in seconds: the best and the middle turn.
struct times {
    uint64_t sum;
    double best[SIDES], middle[SIDES];
};

// Scans all frames, turn about.
static struct times timed(const struct frames *f) {
    double turns[SIDES][TURNS];
    struct times t = {.sum = 0};
    for (int k = 0; k < TURNS; k++)
        for (int side = 0; side < SIDES; side++) {
            double start = seconds();
            uint64_t found = sides[side](f->sequence, f->sequence_len, f->in.bytes, f->in.len, f->ends, f->n);
            turns[side][k] = seconds() - start;
            if (side == OURS) t.sum = found;
            if (found != t.sum) stop("the Rust's headers end elsewhere");
        }
    for (int side = 0; side < SIDES; side++) {
        qsort(turns[side], TURNS, sizeof(double), by_time);
        t.best[side] = turns[side][0];
        t.middle[side] = turns[side][TURNS / 2];
    }
    return t;
}

static void tell(const char *shape, const struct times *t) {
    double scale = 1e9 / FRAMES;
    printf("%-36s %6.1f", shape, (double)t->sum / FRAMES);
    for (int side = 0; side < SIDES; side++) printf(" %7.0f %7.0f", t->best[side] * scale, t->middle[side] * scale);
    for (int side = RUST; side < SIDES; side++) printf(" %6.2f", t->middle[OURS] / t->middle[side]);
    printf("\n");
    fflush(stdout);
}

// The times of frame `from` and those behind it, again and again.
static struct times times_of(const struct frames *once, size_t from) {
    struct frames f = repeated(once, from);
    struct times t = timed(&f);
    free_frames(&f);
    return t;
}

static void measure(const char *shape, const struct frames *once, size_t from) {
    struct times t = times_of(once, from);
    tell(shape, &t);
}

static double by_rust(const struct times *t) { return t->middle[OURS] / t->middle[RUST]; }

// The second frame cut short at every byte, as long as its header is: the cut at which ours takes longest by the Rust's time.
static void measure_cuts(const char *shape, const struct frames *f) {
    uint32_t ends[2] = {f->ends[0], f->ends[0]};
    size_t at = 0;
    struct frames cut = *f;
    cut.ends = ends;
    cut.n = 2;
    struct times worst = times_of(&cut, 1);
    for (size_t k = 1; k < CUTS && ends[0] + k < f->ends[1]; k++) {
        ends[1] = (uint32_t)(ends[0] + k);
        struct times t = times_of(&cut, 1);
        if (t.sum >= FRAMES) break; // each cut frame was scanned
        if (by_rust(&t) <= by_rust(&worst)) continue;
        worst = t;
        at = k;
    }
    char text[80];
    snprintf(text, sizeof text, "%.40s, cut to %zu", shape, at);
    tell(text, &worst);
}

// ---- real streams

// The OBUs of a stream: the payloads of the first sequence header and of all frames.
static void put_stream(struct frames *f, const uint8_t *data, size_t len) {
    for (size_t at = 0; at < len;) {
        uint8_t head = data[at++];
        size_t size = 0;
        if (!(head & 2)) stop("an OBU without its size");
        at += head >> 2 & 1;
        for (int shift = 0; at < len; shift += 7) {
            size |= (size_t)(data[at] & 127) << shift;
            if (data[at++] < 128) break;
        }
        if (size > len - at) stop("an OBU is cut short");
        int type = head >> 3 & 15;
        if (type == 1 && !f->sequence_len) {
            if (size > FRAME_BYTES) stop("a sequence header is too long");
            memcpy(f->sequence, data + at, size);
            f->sequence_len = size;
        }
        if (type == 3 || type == FRAME) put_frame(f, data + at, size);
        at += size;
    }
}

static void stream(const char *path) {
    enum { ROOM = 100000000 };
    FILE *file = fopen(path, "rb");
    if (!file) stop("a stream can't be read");
    uint8_t *bytes = lend(ROOM);
    size_t len = fread(bytes, 1, ROOM, file);
    fclose(file);
    struct frames f = lend_frames(FRAMES);
    put_stream(&f, bytes, len);
    if (!f.n || !f.sequence_len) stop("a stream has no frame, or no sequence header");
    const char *slash = strrchr(path, '/'), *name = slash ? slash + 1 : path;
    measure(name, &f, 0);
    if (f.n > 1) measure_cuts(name, &f);
    free_frames(&f);
    free(bytes);
}

// ---- made frames

struct bits {
    uint8_t bytes[FRAME_BYTES];
    size_t n;
};

static void put_bits(struct bits *b, int n, uint32_t v) {
    for (int i = n - 1; i >= 0; i--, b->n++) {
        if (b->n >= 8 * FRAME_BYTES) stop("a header is too long");
        if (v >> i & 1) b->bytes[b->n / 8] |= (uint8_t)(128 >> b->n % 8);
    }
}

// One colour plane, 64 by 64, no order hints and no tool that a frame could be asked about.
static void put_sequence(struct frames *f) {
    struct bits b = {.n = 0};
    put_bits(&b, 3 + 1 + 1 + 1 + 1, 0); // profile, still, reduced, timing, display delay
    put_bits(&b, 5 + 12 + 5, 0);        // one operating point
    put_bits(&b, 4, 5);
    put_bits(&b, 4, 5);
    put_bits(&b, 6, 63);
    put_bits(&b, 6, 63);
    put_bits(&b, 1 + 1 + 1 + 1, 0);     // frame ids, superblocks of 128, intra tools
    put_bits(&b, 1 + 1 + 1 + 1 + 1, 0); // inter tools, order hints
    put_bits(&b, 1 + 1, 0);             // no screen content tools
    put_bits(&b, 1 + 1 + 1, 0);         // superres, cdef, restoration
    put_bits(&b, 3, 2);                 // 8 bits, one plane, no description
    put_bits(&b, 1 + 1 + 1, 0);         // range, separate deltas, film grain
    put_bits(&b, 1, 1);
    f->sequence_len = (b.n + 7) / 8;
    memcpy(f->sequence, b.bytes, f->sequence_len);
}

// decode_subexp, as long as it gets.
static void put_subexp(struct bits *b, uint32_t symbols) {
    uint32_t mk = 0;
    for (int i = 0;; i++) {
        int b2 = i ? 3 + i - 1 : 3;
        if (symbols <= mk + 3 * (1u << b2)) break;
        put_bits(b, 1, 1);
        mk += 1u << b2;
    }
    int w = 32 - __builtin_clz(symbols - mk);
    put_bits(b, w, (1u << w) - 1);
}

// Every segment has every feature.
static void put_segments(struct bits *b) {
    static const int width[8] = {9, 7, 7, 7, 7, 3, 0, 0};
    put_bits(b, 1, 1);
    for (int i = 0; i < 64; i++) {
        put_bits(b, 1, 1);
        put_bits(b, width[i % 8], 1);
    }
}

static void put_key_front(struct bits *b) {
    put_bits(b, 1 + 2, 0);
    put_bits(b, 1, 1);     // shown
    put_bits(b, 1, 1);     // disable_cdf_update
    put_bits(b, 1 + 1, 0); // size, render size
}

static void put_inter_front(struct bits *b) {
    put_bits(b, 3, 1);
    put_bits(b, 1, 1);     // shown
    put_bits(b, 1, 0);     // error resilient
    put_bits(b, 1, 1);     // disable_cdf_update
    put_bits(b, 1, 0);     // size
    put_bits(b, 3, 7);     // primary_ref_frame
    put_bits(b, 8, 2);     // refresh_frame_flags
    for (uint32_t i = 0; i < 7; i++) put_bits(b, 3, i);
    put_bits(b, 1, 0);     // render size
    put_bits(b, 1, 1);     // high precision
    put_bits(b, 1, 1);     // switchable filter
    put_bits(b, 1, 0);     // motion mode
}

// Behind the front: the quantizer, segments, the loop filter unless lossless.
static void put_middle(struct bits *b, uint32_t q, bool segmented) {
    put_bits(b, 1, 1); // uniform tiles
    put_bits(b, 8, q);
    put_bits(b, 1 + 1, 0);
    if (segmented)
        put_segments(b);
    else
        put_bits(b, 1, 0);
    if (q) put_bits(b, 1, 0); // delta_q_present
    if (q) put_bits(b, 6 + 6 + 3 + 1 + 1, 0);
}

static void put_made(struct frames *f, const struct bits *b) { put_frame(f, b->bytes, (b->n + 7) / 8); }

static void put_key(struct frames *f, uint32_t q, bool segmented) {
    struct bits b = {.n = 0};
    put_key_front(&b);
    put_middle(&b, q, segmented);
    put_bits(&b, 1, 0); // reduced_tx_set
    put_made(f, &b);
}

// Seven references, each affine or each the identity.
static void put_inter(struct frames *f, bool affine, bool segmented) {
    struct bits b = {.n = 0};
    put_inter_front(&b);
    put_middle(&b, 100, segmented);
    put_bits(&b, 1 + 1, 0); // reference_select, reduced_tx_set
    for (int i = 0; i < 7; i++) {
        put_bits(&b, affine ? 3 : 1, affine ? 4 : 0);
        for (int j = 0; affine && j < 6; j++) put_subexp(&b, 8193);
    }
    put_made(f, &b);
}

// A key of the smallest header alone, or one and inter frames behind it.
static void made(const char *shape, bool inter, bool affine, bool segmented) {
    struct frames f = lend_frames(2);
    put_sequence(&f);
    put_key(&f, inter || segmented ? 100 : 0, !inter && segmented);
    if (inter) put_inter(&f, affine, segmented);
    measure(shape, &f, inter);
    free_frames(&f);
}

// A header that shows another frame, which both sides refuse.
static void made_existing(void) {
    struct frames f = lend_frames(1);
    const uint8_t header = 0x98;
    put_sequence(&f);
    put_frame(&f, &header, 1);
    measure("show existing", &f, 0);
    free_frames(&f);
}

int main(int n, char **files) {
    printf("nanoseconds a frame, best and middle of %d turns of %d frames; ratios of the middles\n", TURNS, FRAMES);
    printf("%-36s %6s %15s %15s %15s %15s %20s\n", "frames", "bits", "ours", "Rust", "no trace", "few clones", "ratios");
    made("smallest shown key", false, false, false);
    made("key, full segmentation", false, false, true);
    made("inter", true, false, false);
    made("inter, full segmentation", true, false, true);
    made("inter, full global motion", true, true, false);
    made_existing();
    for (int i = 1; i < n; i++) stream(files[i]);
    return 0;
}
