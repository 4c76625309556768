// The copy that every writer makes beside memcpy, in one run: the best of several rounds each, as a ratio.
#include <stdint.h>
#include <stdio.h>
#include <stdlib.h>
#include <string.h>
#include <time.h>

size_t bench_put_bytes(const uint8_t *src, size_t src_len, uint8_t *out, size_t out_len);

static double seconds(void) {
    struct timespec t;
    clock_gettime(CLOCK_MONOTONIC, &t);
    return t.tv_sec + t.tv_nsec / 1e9;
}

// The best time of one pass over `total` bytes in pieces of `piece`.
static double best(int ours, const uint8_t *src, uint8_t *out, size_t total, size_t piece) {
    double least = 1e9;
    for (int round = 0; round < 9; round++) {
        double start = seconds();
        for (size_t at = 0; at + piece <= total; at += piece) {
            if (ours) {
                if (bench_put_bytes(src + at, piece, out + at, piece) != piece) abort();
            } else {
                memcpy(out + at, src + at, piece);
                __asm__ volatile("" ::"r"(out) : "memory");
            }
        }
        double took = seconds() - start;
        if (took < least) least = took;
    }
    return least;
}

int main(void) {
    size_t total = 100000000;
    size_t pieces[] = {16, 255, 1000, 4000, 50000, 1000000, 100000000};
    uint8_t *src = malloc(total), *out = malloc(total);
    if (!src || !out) return 1;
    for (size_t i = 0; i < total; i++) src[i] = (uint8_t)(i * 2654435761u >> 13);
    memset(out, 0, total);
    printf("%12s %14s %14s %8s\n", "piece", "memcpy ms", "put_bytes ms", "ratio");
    for (size_t k = 0; k < sizeof pieces / sizeof *pieces; k++) {
        double theirs = best(0, src, out, total, pieces[k]);
        double ours = best(1, src, out, total, pieces[k]);
        if (memcmp(src, out, total / pieces[k] * pieces[k])) return 1;
        printf("%12zu %14.2f %14.2f %8.2f\n", pieces[k], theirs * 1e3, ours * 1e3, ours / theirs);
    }
    return 0;
}
