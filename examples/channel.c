// A channel from files, as a packaging host would make one: the first two units of each file are a board's key and golden.
//   channel [-g GOP_SIZE] [-r FPS[/FPS_DEN]] -o OUT FILE:FRAMES ..
// Writes the channel as an AV1 stream (low-overhead format) to OUT and prints its listing (docs/FORMATS.md).
#include "../include/magbelo.h"

#include <stdarg.h>
#include <stdio.h>
#include <stdlib.h>
#include <string.h>

struct bytes {
    uint8_t *at;
    size_t len;
};

struct board {
    const char *file;
    uint64_t frames;
};

static const char *const words[] = {
    [1] = "an OBU's forbidden bit is set", [2] = "a reserved OBU type", [3] = "an extension byte is missing",
    [4] = "an OBU's size is no number", [5] = "an OBU reaches past the end", [14] = "a header's bits run out",
    [15] = "an unknown profile", [16] = "a number in the header is too long", [17] = "a reduced still picture header",
    [18] = "frame ids are on", [19] = "a decoder model with unequal intervals", [20] = "film grain is on",
    [21] = "no boards", [22] = "GOP_SIZE is under 2", [23] = "fewer than two frames in all", [24] = "a board without frames",
    [25] = "over 5,000,000 frames in all", [26] = "the first key has no sequence header",
    [27] = "not encoded with the first board's settings", [28] = "a unit without a frame",
    [29] = "the first unit is no shown key", [30] = "the second unit only shows a frame again",
    [31] = "the second unit is not shown", [32] = "the second unit is a key", [33] = "the second unit is stored in no slot",
    [34] = "over 4,000,000,000 bytes", [35] = "the result is over 4,000,000,000 bytes", [36] = "boards that overlap the end",
};

static void fail(const char *format, ...) {
    va_list more;
    va_start(more, format);
    fputs("channel: ", stderr);
    vfprintf(stderr, format, more);
    fputc('\n', stderr);
    exit(1);
}

static void refuse(uint64_t number, const char *file) {
    const char *why = number < sizeof words / sizeof *words && words[number] ? words[number] : "not known here";
    fail("%s%srefused %llu: %s", file ? file : "", file ? ": " : "", (unsigned long long)number, why);
}

static void *memory(size_t count, size_t size) {
    void *got = calloc(count ? count : 1, size);
    if (!got) fail("no memory");
    return got;
}

static struct bytes file_bytes(const char *name) {
    FILE *f = fopen(name, "rb");
    long end;
    if (!f || fseek(f, 0, SEEK_END) || (end = ftell(f)) < 0 || fseek(f, 0, SEEK_SET)) fail("%s: cannot be read", name);
    struct bytes b = {memory((size_t)end, 1), (size_t)end};
    if (fread(b.at, 1, b.len, f) != b.len) fail("%s: cannot be read", name);
    fclose(f);
    return b;
}

// The first two units of a stream. A unit has two bytes at least, and units no more than a size's bytes over the stream's.
static struct bytes first_two(const char *name, size_t *key_len) {
    struct bytes in = file_bytes(name), out = {memory(in.len + 16, 1), in.len + 16};
    size_t slots = in.len / 2 + 2, bytes, units;
    uint32_t *ends = memory(slots, sizeof *ends);
    uint32_t refusal = magbelo_split_obu_stream(in.at, in.len, out.at, out.len, ends, slots, &bytes, &units);
    if (refusal) refuse(refusal, name);
    if (units < 2) fail("%s: has %zu units, a board needs two", name, units);
    *key_len = ends[0];
    out.len = ends[1];
    free(in.at);
    free(ends);
    return out;
}

// How much longer units in written form may become when their sequence headers are replaced.
static size_t growth(struct bytes unit) {
    size_t more = 0, at = 0;
    while (at < unit.len) {
        uint8_t head = unit.at[at++];
        size_t size = 0;
        int shift = 0;
        at += head >> 2 & 1;
        do size |= (size_t)(unit.at[at] & 127) << shift, shift += 7;
        while (unit.at[at++] & 128);
        at += size;
        more += (head >> 3 & 15) == 1 ? 410 : 8;
    }
    return more;
}

// What assembly has made, in the memory lent to it.
struct made {
    size_t units, cues;
    uint32_t *list, *ends;
    uint8_t *pictures, *shows;
};

static struct bytes unit_of(const struct made *m, uint32_t entry) {
    size_t k = 2 * (entry / 4) + entry % 4, start = k ? m->ends[k - 1] : 0;
    if (entry % 4 == 2) return (struct bytes){m->shows + 5 * (entry / 4), 5};
    return (struct bytes){m->pictures + start, m->ends[k] - start};
}

// The whole file before the listing: who stops reading the listing still has the channel.
static void write_units(const struct made *m, const char *name) {
    FILE *out = fopen(name, "wb");
    if (!out) fail("%s: cannot be written", name);
    for (size_t i = 0; i < m->units; i++) {
        struct bytes unit = unit_of(m, m->list[i]);
        if (fwrite(unit.at, 1, unit.len, out) != unit.len) fail("%s: cannot be written", name);
    }
    if (fclose(out)) fail("%s: cannot be written", name);
}

// seconds: how long a frame is shown
static void print_units(const struct made *m, double seconds) {
    printf("units %zu\ncues %zu\n", m->units, m->cues);
    for (size_t i = 0; i < m->units; i++) {
        uint32_t entry = m->list[i];
        size_t len = unit_of(m, entry).len;
        printf("%zu %c %u ", i + 1, "KGS"[entry % 4], entry / 4);
        if (entry % 4) printf("%d %zu\n", m->shows[5 * (entry / 4) + 4] >> 4 & 7, len);
        else printf("- %zu %.3f\n", len, (double)i * seconds);
    }
}

static void assemble(struct board *boards, size_t n, uint64_t gop, uint32_t fps, uint32_t den, const char *name) {
    struct bytes picture = {NULL, 0};
    uint64_t *segments = memory(5 * n, sizeof *segments), frames = 0;
    size_t grown = 0;
    for (size_t i = 0; i < n; i++) {
        size_t key_len;
        struct bytes two = first_two(boards[i].file, &key_len);
        if (!(picture.at = realloc(picture.at, picture.len + two.len))) fail("no memory");
        memcpy(picture.at + picture.len, two.at, two.len);
        const uint64_t record[] = {picture.len, picture.len + key_len, picture.len + key_len, picture.len + two.len, boards[i].frames};
        memcpy(segments + 5 * i, record, sizeof record);
        picture.len += two.len;
        grown += growth(two);
        frames = frames + boards[i].frames < frames ? UINT64_MAX : frames + boards[i].frames;
        free(two.at);
    }
    // Over 5,000,000 frames are refused, so that no more room is ever needed.
    size_t most = frames < 5000000 ? frames : 5000000, cue_room = (gop ? most / gop : most) + n;
    size_t room = picture.len + grown, header_room = picture.len + 408, bytes, header_len;
    uint32_t *cue = memory(cue_room, sizeof *cue);
    uint8_t *header = memory(header_room, 1);
    struct made m = {
        .list = memory(most, sizeof *m.list), .ends = memory(2 * n, sizeof *m.ends),
        .pictures = memory(room, 1), .shows = memory(5 * n, 1),
    };
    uint64_t slot, answer = magbelo_assemble(picture.at, picture.len, segments, 5 * n, gop, fps, den, m.list, most, cue, cue_room,
                                             m.pictures, room, m.ends, 2 * n, m.shows, 5 * n, header, header_room, &m.units,
                                             &m.cues, &bytes, &header_len, &slot);
    if (answer) refuse(answer & 0xffffffff, answer >> 32 ? boards[(answer >> 32) - 1].file : NULL);
    write_units(&m, name);
    print_units(&m, (double)(den ? den : 1) / (fps ? fps : 1));
    void *lent[] = {picture.at, segments, m.list, cue, m.ends, m.pictures, m.shows, header};
    for (size_t i = 0; i < sizeof lent / sizeof *lent; i++) free(lent[i]);
}

static void usage(void) {
    fputs("usage: channel [-g GOP_SIZE] [-r FPS[/FPS_DEN]] -o OUT FILE:FRAMES ..\n", stderr);
    exit(2);
}

static uint64_t number(const char *text, char end, const char **rest, uint64_t most) {
    char *stop;
    if (*text < '0' || *text > '9') usage();
    unsigned long long v = strtoull(text, &stop, 10);
    if ((*stop && *stop != end) || v > most) usage();
    if (rest) *rest = stop;
    return v;
}

int main(int argc, char **argv) {
    uint64_t gop = 250, fps = 25, den = 1;
    const char *name = NULL, *rest;
    int i = 1;
    for (; i + 1 < argc && argv[i][0] == '-'; i += 2) {
        if (!strcmp(argv[i], "-g")) gop = number(argv[i + 1], 0, NULL, UINT64_MAX);
        else if (!strcmp(argv[i], "-o")) name = argv[i + 1];
        else if (!strcmp(argv[i], "-r")) {
            fps = number(argv[i + 1], '/', &rest, UINT32_MAX);
            den = *rest ? number(rest + 1, 0, NULL, UINT32_MAX) : 1;
        } else usage();
    }
    if (!name || i >= argc) usage();
    size_t n = (size_t)(argc - i);
    struct board *boards = memory(n, sizeof *boards);
    for (size_t b = 0; b < n; b++) {
        char *colon = strrchr(argv[i + (int)b], ':');
        if (!colon) usage();
        boards[b].frames = number(colon + 1, 0, NULL, UINT64_MAX);
        *colon = 0;
        boards[b].file = argv[i + (int)b];
    }
    assemble(boards, n, gop, (uint32_t)fps, (uint32_t)den, name);
    free(boards);
    return 0;
}
