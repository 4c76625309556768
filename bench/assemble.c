// Assembly beside the Rust: the same orders, turn about, the median of the rounds; and the most memory that each side
// takes, in a process of its own. gop_size is 250 where none is named.
#include "common.h"
#include <sys/resource.h>
#include <sys/wait.h>
#include <unistd.h>

// The Rust, of oracle/server/src/timed.rs.
struct listing {
    uint32_t *list;
    size_t units;
    uint32_t *cues;
    size_t cue_count;
    uint8_t *pictures;
    uint32_t *ends;
    uint8_t *shows;
    size_t segments;
    uint8_t *header;
    size_t header_len;
    uint64_t golden_slot;
};
void *rust_assemble(const uint8_t *picture, size_t picture_len, const uint64_t *segments, size_t numbers,
                    uint64_t gop_size, uint32_t fps, uint32_t fps_den);
bool rust_listing_is(const void *found, const struct listing *ours);
void rust_assembly_free(void *found);

enum { BOARDS = 60, HEADER = 19, TIMING = 8 };

// An order and its input; the frames of a key and of a golden have `key` and `golden` bytes.
struct order {
    const char *name;
    size_t key, golden;
    uint64_t frames, gop_size;
    struct input in;
    uint64_t segments[5 * BOARDS];
};

// Lent memory that holds the result and not a byte more.
struct lent {
    size_t list, cues, pictures, all;
    struct listing out;
};

// Document 01's K and G with bytes behind their frame headers; each board has its own, and the slots go by turns.
static void put_board(struct order *o, unsigned board, uint64_t *s) {
    static const uint8_t header[] = {0x0A, 9, 0, 0, 0, 1, 0x9F, 0xF8, 0, 0, 0x10};
    struct input *in = &o->in;
    s[0] = in->len;
    put_obu(in, DELIMITER, 0);
    for (size_t i = 0; i < sizeof header; i++) put(in, header[i]);
    put_obu(in, FRAME, o->key);
    in->bytes[in->len - o->key] = 0x10;
    in->bytes[in->len - 1] = (uint8_t)board;
    s[1] = s[2] = in->len;
    put_obu(in, DELIMITER, 0);
    put_obu(in, FRAME, o->golden);
    in->bytes[in->len - o->golden] = 0x38;
    in->bytes[in->len - o->golden + 1] = (uint8_t)(2 << board % 7);
    in->bytes[in->len - 1] = (uint8_t)(board + 100);
    s[3] = in->len;
}

static void fill(struct order *o) {
    o->in = (struct input){.room = BOARDS * (o->key + o->golden + 64)};
    o->in.bytes = lend(o->in.room);
    uint64_t left = o->frames;
    for (unsigned i = 0; i < BOARDS; i++) {
        uint64_t *s = o->segments + 5 * i;
        put_board(o, i, s);
        s[4] = i + 1 < BOARDS ? o->frames / BOARDS : left;
        left -= s[4];
    }
}

static struct lent room_for(const struct order *o) {
    struct lent m = {.list = o->frames, .pictures = o->in.len + TIMING * BOARDS};
    for (int i = 0; i < BOARDS; i++) {
        uint64_t frames = o->segments[5 * i + 4], rest = frames % o->gop_size;
        m.cues += frames / o->gop_size + (rest > 1 || frames == 1);
    }
    m.all = 4 * (m.list + m.cues + 2 * BOARDS) + m.pictures + 5 * BOARDS + HEADER;
    m.out = (struct listing){.list = lend(4 * m.list), .cues = lend(4 * m.cues), .pictures = lend(m.pictures),
                             .ends = lend(4 * 2 * BOARDS), .shows = lend(5 * BOARDS), .segments = BOARDS,
                             .header = lend(HEADER)};
    return m;
}

static void ours(const struct order *o, struct lent *m) {
    struct listing *l = &m->out;
    size_t picture_len;
    uint64_t answer = magbelo_assemble(o->in.bytes, o->in.len, o->segments, 5 * BOARDS, o->gop_size, 25, 1, l->list, m->list,
                                       l->cues, m->cues, l->pictures, m->pictures, l->ends, 2 * BOARDS, l->shows,
                                       5 * BOARDS, l->header, HEADER, &l->units, &l->cue_count, &picture_len,
                                       &l->header_len, &l->golden_slot);
    if (answer || l->units != o->frames || l->cue_count != m->cues || picture_len != m->pictures) stop("a refusal");
}

static void *theirs(const struct order *o) {
    void *found = rust_assemble(o->in.bytes, o->in.len, o->segments, 5 * BOARDS, o->gop_size, 25, 1);
    if (!found) stop("the Rust refuses");
    return found;
}

static void times(struct order *o) {
    double a[ROUNDS], b[ROUNDS], c[ROUNDS];
    fill(o);
    struct lent m = room_for(o);
    for (int k = 0; k < ROUNDS; k++) {
        double t = seconds();
        ours(o, &m);
        a[k] = seconds() - t;
        t = seconds();
        void *found = theirs(o);
        b[k] = seconds() - t;
        if (!rust_listing_is(found, &m.out)) stop("the Rust gives another listing");
        t = seconds();
        rust_assembly_free(found);
        c[k] = b[k] + seconds() - t;
    }
    double us = median(a), rust = median(b), released = median(c);
    printf("%-36s %8.2f %8.2f %8.1f %8.1f %8.2f  %s\n", o->name, us * 1e3, rust * 1e3, rust / us, released / us,
           us / (double)o->frames * 1e9, rust / us < 20 ? "UNDER THE BAR" : "");
}

static double most_megabytes(void) {
    struct rusage use;
    getrusage(RUSAGE_SELF, &use);
    return use.ru_maxrss * 1024 / 1e6;
}

// The most memory before a side's only call and after it; before it all that is lent was touched.
static void memory(struct order *o, bool rust) {
    fill(o);
    size_t lent = 0;
    double before;
    if (rust) {
        before = most_megabytes();
        theirs(o);
    } else {
        struct lent m = room_for(o);
        lent = m.all;
        before = most_megabytes();
        ours(o, &m);
    }
    double after = most_megabytes();
    const char *note = !rust && after - before > 0.5 ? "OVER WHAT IS LENT" : "";
    printf("%-36s %-5s %8.2f %8.2f %8.2f %8.2f %8.2f  %s\n", o->name, rust ? "Rust" : "ours", o->in.len / 1e6, lent / 1e6,
           before, after, after - before, note);
}

// In a process of its own, which starts with nothing lent.
static void memory_alone(struct order *o, bool rust) {
    fflush(stdout);
    pid_t child = fork();
    if (child < 0) stop("no process");
    if (!child) {
        memory(o, rust);
        exit(0);
    }
    int status;
    if (waitpid(child, &status, 0) != child || status) stop("a measurement of memory failed");
}

int main(void) {
    struct order orders[] = {
        {.name = "3,600,000 frames, 25 KB a pair", .key = 20000, .golden = 5000, .frames = 3600000, .gop_size = 250},
        {.name = "3,600,000 frames, 25 KB a unit", .key = 25000, .golden = 25000, .frames = 3600000, .gop_size = 250},
        {.name = "1,800,000 frames, 25 KB a pair", .key = 20000, .golden = 5000, .frames = 1800000, .gop_size = 250},
        {.name = "5,000,000 frames, 25 KB a pair", .key = 20000, .golden = 5000, .frames = 5000000, .gop_size = 250},
        {.name = "5,000,000 frames, gop_size 2, 100 B", .key = 50, .golden = 50, .frames = 5000000, .gop_size = 2},
    };
    size_t n = sizeof orders / sizeof *orders;
    printf("%-36s %-5s %8s %8s %8s %8s %8s\n", "60 boards: MB", "side", "input", "lent", "before", "after", "more");
    for (size_t i = 0; i < n; i++) {
        memory_alone(&orders[i], false);
        memory_alone(&orders[i], true);
    }
    printf("%-36s %8s %8s %8s %8s %8s\n", "60 boards", "ours ms", "Rust ms", "faster", "released", "ns/frame");
    for (size_t i = 0; i < n; i++) {
        times(&orders[i]);
        fflush(stdout);
        free(orders[i].in.bytes);
    }
    return 0;
}
