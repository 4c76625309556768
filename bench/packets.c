// Packets and canonical units beside the Rust: the same inputs, turn about, the median of the rounds.
#include "common.h"

// The Rust, of oracle/server/src/timed.rs.
void *rust_packets(const uint8_t *bytes, const uint32_t *ends, const uint64_t *times, size_t n);
void *rust_merge_packets(void *packets);
bool rust_packets_are(const void *packets, const uint8_t *bytes, const uint32_t *ends, const uint64_t *times, size_t n);
void rust_packets_free(void *packets);
void *rust_canonicalize_tu(const uint8_t *unit, size_t len);
bool rust_bytes_are(const void *found, const uint8_t *bytes, size_t len);
void rust_bytes_free(void *bytes);

// Packets: their bytes, and the end and the time of each.
struct packets {
    struct input in;
    uint32_t *ends;
    uint64_t *times;
    size_t n;
};

static struct packets lend_packets(size_t bytes, size_t n) {
    struct input in = {.bytes = lend(bytes), .room = bytes};
    return (struct packets){in, lend(n * sizeof(uint32_t)), lend(n * sizeof(uint64_t)), 0};
}

static void free_packets(struct packets *p) {
    free(p->in.bytes);
    free(p->ends);
    free(p->times);
}

// Merges packets, turn about. The Rust takes its packets for its own, so that they are made anew for each turn.
static void merge_turns(const char *shape, const struct packets *p) {
    struct turns all;
    struct packets out = lend_packets(p->in.len + 64, p->n);
    for (int k = 0; k < ROUNDS; k++) {
        double t = seconds();
        size_t n = bench_merge_packets(p->in.bytes, p->in.len, p->ends, p->n, p->times, p->n, out.in.bytes, out.in.room,
                                       out.ends, p->n, out.times, p->n);
        all.ours[k] = seconds() - t;
        void *packets = rust_packets(p->in.bytes, p->ends, p->times, p->n);
        t = seconds();
        void *found = rust_merge_packets(packets);
        all.theirs[k] = seconds() - t;
        if (!n) stop("a refusal");
        if (!rust_packets_are(found, out.in.bytes, out.ends, out.times, n)) stop("the Rust has other packets");
        t = seconds();
        rust_packets_free(found);
        all.released[k] = all.theirs[k] + seconds() - t;
    }
    print(shape, "packets", &all, 1);
    free_packets(&out);
}

// `count` times the packets of `types`, each digit an OBU and each bar the end of a packet.
static void merge(const char *shape, size_t count, const char *types, size_t size) {
    struct packets p = lend_packets(count * strlen(types) * (size + 10), count * strlen(types));
    for (size_t i = 0; i < count; i++)
        for (const char *t = types; *t; t++) {
            if (*t != '|') {
                put_obu(&p.in, (uint8_t)(*t - '0'), *t - '0' == DELIMITER ? 0 : size);
                continue;
            }
            p.times[p.n] = p.n;
            p.ends[p.n++] = (uint32_t)p.in.len;
        }
    merge_turns(shape, &p);
    free_packets(&p);
}

// Makes one unit canonical, turn about.
static void canonical(const char *shape, size_t count, const char *types, size_t size) {
    struct input in = {.room = count * strlen(types) * (size + 10)};
    struct turns all;
    in.bytes = lend(in.room);
    put_shape(&in, count, types, size);
    uint8_t *out = lend(in.len);
    for (int k = 0; k < ROUNDS; k++) {
        double t = seconds();
        size_t n = bench_canonicalize_tu(in.bytes, in.len, out, in.len);
        all.ours[k] = seconds() - t;
        t = seconds();
        void *found = rust_canonicalize_tu(in.bytes, in.len);
        all.theirs[k] = seconds() - t;
        if (!n) stop("a refusal");
        if (!rust_bytes_are(found, out, n)) stop("the Rust writes other bytes");
        t = seconds();
        rust_bytes_free(found);
        all.released[k] = all.theirs[k] + seconds() - t;
    }
    print(shape, "canonical", &all, 1);
    free(out);
    free(in.bytes);
}

int main(void) {
    print_head();
    merge("frames of 50 KB", 2000, "26|", 50000);
    merge("frames of 500", 200000, "26|", 500);
    merge("frames of 10", 500000, "26|", 10);
    merge("one OBU a packet, 500", 100000, "2|5|6|", 500);
    merge("one OBU a packet, 10", 300000, "2|5|6|", 10);
    merge("no frame, 10", 500000, "25|", 10);
    merge("empty packets", 1000000, "6||", 0);
    canonical("one frame of 100 MB", 1, "26", 100000000);
    canonical("OBUs of 500", 200000, "6", 500);
    canonical("OBUs of 10", 500000, "6", 10);
    canonical("stray delimiters, 500", 200000, "26", 500);
    canonical("stray delimiters, 10", 500000, "26", 10);
    return 0;
}
