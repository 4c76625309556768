/* What the measurements share: the functions under measurement, a clock, lent memory, and inputs. */
#ifndef BENCH_COMMON_H
#define BENCH_COMMON_H

#include "ours.h"

#include <stdbool.h>
#include <stdio.h>
#include <stdlib.h>
#include <string.h>
#include <time.h>

/* The time that this process had a processor: on a quiet machine the time that passed. */
static double seconds(void) {
    struct timespec t;
    clock_gettime(CLOCK_PROCESS_CPUTIME_ID, &t);
    return t.tv_sec + t.tv_nsec / 1e9;
}

enum { ROUNDS = 5 };

static inline int by_time(const void *a, const void *b) {
    double x = *(const double *)a, y = *(const double *)b;
    return (x > y) - (x < y);
}

static inline double median(double *times) {
    qsort(times, ROUNDS, sizeof *times, by_time);
    return times[ROUNDS / 2];
}

/* Times of a call of ours and of the Rust's, and of the Rust's with the release of what it made. */
struct turns {
    double ours[ROUNDS], theirs[ROUNDS], released[ROUNDS];
};

static inline void print_head(void) {
    printf("%-28s %-13s %9s %9s %7s %9s\n", "shape", "job", "ours ms", "Rust ms", "ratio", "released");
}

/* Within a twentieth of the Rust's time is even. */
static inline void print(const char *shape, const char *job, struct turns *t, double aim) {
    double a = median(t->ours), b = median(t->theirs), c = median(t->released);
    const char *note = a / b > 1.05 ? "SLOWER" : a / b > aim + 0.05 ? "over the aim" : "";
    printf("%-28s %-13s %9.2f %9.2f %7.2f %9.2f  %s\n", shape, job, a * 1e3, b * 1e3, a / b, a / c, note);
    fflush(stdout);
}

static void stop(const char *why) {
    fprintf(stderr, "bench: %s\n", why);
    exit(1);
}

/* Memory that was touched, so that no page is made while a time is taken. */
static inline void *lend(size_t bytes) {
    void *p = malloc(bytes + 1);
    if (!p) stop("no memory");
    memset(p, 0xaa, bytes + 1);
    return p;
}

/* An input that grows: OBUs are put behind it. */
struct input {
    uint8_t *bytes;
    size_t len, room;
};

static inline void put(struct input *in, uint8_t byte) {
    if (in->len == in->room) stop("an input has too little room");
    in->bytes[in->len++] = byte;
}

/* An OBU with a size in shortest form and a payload of bytes that repeat late. */
static inline void put_obu(struct input *in, uint8_t type, size_t size) {
    put(in, (uint8_t)(type << 3 | 2));
    for (size_t v = size;; v >>= 7) {
        put(in, (uint8_t)(v >= 128 ? v % 128 + 128 : v));
        if (v < 128) break;
    }
    if (in->room - in->len < size) stop("an input has too little room");
    for (size_t i = 0; i < size; i++) in->bytes[in->len + i] = (uint8_t)(i * 2654435761u >> 13);
    in->len += size;
}

enum { DELIMITER = 2, METADATA = 5, FRAME = 6 };

/* `count` times the OBUs whose types are the digits of `types`, each with a payload of `size` bytes; delimiters are empty. */
static inline void put_shape(struct input *in, size_t count, const char *types, size_t size) {
    for (size_t i = 0; i < count; i++)
        for (const char *t = types; *t; t++) put_obu(in, (uint8_t)(*t - '0'), *t - '0' == DELIMITER ? 0 : size);
}

#endif
