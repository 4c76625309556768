// Whether the time grows with the input alone: each job at n and at twice n, for shapes that could cost more.
#include "common.h"

enum { JOBS = 4 };

static const char *const names[JOBS] = {"read stream", "write stream", "write annexb", "read annexb"};

static double least(double a, double b) { return a < b ? a : b; }

// The best time of each job on `count` times the OBUs that `types` names.
static void times(size_t count, const char *types, size_t size, double *best) {
    struct input in = {.room = count * strlen(types) * (size + 10)};
    in.bytes = lend(in.room);
    put_shape(&in, count, types, size);
    // Annex B takes at most four bytes more for each OBU
    size_t room = in.len + 4 * count * strlen(types) + 64, slots = in.len / 2 + 1;
    uint8_t *units = lend(room), *out = lend(room);
    uint32_t *ends = lend(slots * sizeof *ends);
    for (int job = 0; job < JOBS; job++) best[job] = 1e9;
    for (int k = 0; k < ROUNDS; k++) {
        double t0 = seconds();
        size_t n = split_obu_stream(in.bytes, in.len, units, room, ends, slots);
        double t1 = seconds();
        size_t len = n ? ends[n - 1] : 0;
        size_t a = bench_write_obu_stream(units, len, ends, n, out, room);
        double t2 = seconds();
        size_t b = bench_write_annexb(units, len, ends, n, out, room);
        double t3 = seconds();
        size_t m = bench_split_annexb(out, b, units, room, ends, slots);
        double t4 = seconds();
        if (!n || !a || !b || m != n) stop("a refusal");
        double took[JOBS] = {t1 - t0, t2 - t1, t3 - t2, t4 - t3};
        for (int job = 0; job < JOBS; job++) best[job] = least(best[job], took[job]);
    }
    free(in.bytes);
    free(units);
    free(out);
    free(ends);
}

static void shape(const char *name, size_t count, const char *types, size_t size, size_t twice_count, size_t twice_size) {
    double once[JOBS], twice[JOBS];
    times(count, types, size, once);
    times(twice_count, types, twice_size, twice);
    for (int job = 0; job < JOBS; job++)
        printf("%-28s %-13s %9.2f %9.2f %7.2f\n", name, names[job], once[job] * 1e3, twice[job] * 1e3, twice[job] / once[job]);
    fflush(stdout);
}

int main(void) {
    printf("%-28s %-13s %9s %9s %7s\n", "shape", "job", "n, ms", "2n, ms", "ratio");
    shape("empty OBUs, no frame", 2000000, "5", 0, 4000000, 0);
    shape("empty frames", 2000000, "6", 0, 4000000, 0);
    shape("one OBU, 0.5 and 1 GB", 1, "6", 500000000, 1, 1000000000);
    shape("delimiter, OBU, no frame", 1000000, "25", 0, 2000000, 0);
    shape("delimiters only", 2000000, "2", 0, 4000000, 0);
    shape("delimiter, empty frame", 1000000, "26", 0, 2000000, 0);
    shape("frame, then no frame", 1000000, "65555", 3, 2000000, 3);
    return 0;
}
