// Calls the exported functions as a packaging host does: accepted and refused streams, and what each leaves in memory.
#include "../include/magbelo.h"

#include <stdio.h>
#include <string.h>

static int failures;

// A stream, what it is answered with `room` bytes and `slots` ends, and the units' bytes and ends if it is accepted.
struct stream_case {
    const char *name;
    uint8_t data[16];
    size_t data_len, room, slots;
    uint32_t answer;
    uint8_t out[16];
    size_t bytes;
    uint32_t ends[4];
    size_t units;
};

static void run(const struct stream_case *c) {
    uint8_t out[64];
    uint32_t ends[16];
    size_t bytes = 77, units = 88;
    memset(out, 0xA5, sizeof out);
    memset(ends, 0xA5, sizeof ends);
    uint32_t answer =
        magbelo_split_obu_stream(c->data, c->data_len, out, c->room, ends, c->slots, &bytes, &units);
    int good = answer == c->answer;
    size_t wrote = answer ? 0 : c->bytes, ended = answer ? 0 : c->units;
    good = good && bytes == (answer ? 77 : c->bytes) && units == (answer ? 88 : c->units);
    good = good && !memcmp(out, c->out, wrote) && !memcmp(ends, c->ends, ended * 4);
    for (size_t i = wrote; i < sizeof out; i++) good = good && out[i] == 0xA5;
    for (size_t i = ended; i < sizeof ends / 4; i++) good = good && ends[i] == 0xA5A5A5A5;
    printf("%s: %s\n", c->name, good ? "ok" : "FAILED");
    failures += !good;
}

// Two segments as a host gives them, and what is handed out for them: ranges, the units as they go out with their ends, and the rest.
struct source {
    uint8_t in[48];
    size_t in_len;
    uint64_t ranges[8];
    uint8_t out[64];
    size_t out_len;
    uint32_t ends[4];
    uint8_t shows[10];
    uint32_t list[8];
    size_t units;
};

// Document 01's K with its header, and the same timed 25/1.
#define KEY 0x12, 0, 0x0A, 9, 0, 0, 0, 1, 0x9F, 0xF8, 0, 0, 0x10
#define TIMED 0x12, 0, 0x0A, 0x11, 4, 0, 0, 0, 4, 0, 0, 0, 0x67, 0, 0, 0, 0x33, 0xFF, 0, 0, 2

// 01's K G K G, frames 4 and 1.
static const struct source listing = {
    {KEY, 0x32, 1, 0x10, 0x12, 0, 0x32, 2, 0x38, 0x10, KEY, 0x32, 1, 0x10, 0x12, 0, 0x32, 2, 0x38, 0x10}, 44,
    {0, 16, 16, 22, 22, 38, 38, 44},
    {TIMED, 0x32, 1, 0x10, 0x12, 0, 0x32, 2, 0x38, 0x10, TIMED, 0x32, 1, 0x10, 0x12, 0, 0x32, 2, 0x38, 0x10}, 60,
    {24, 30, 54, 60},
    {0x12, 0, 0x1A, 1, 0xB8, 0x12, 0, 0x1A, 1, 0xB8},
    {0, 1, 2, 2, 4}, 5,
};

// K G and another key and golden, which refreshes slots 5 and 7; frames 4 and 3.
static const struct source different = {
    {KEY, 0x32, 1, 0x10, 0x12, 0, 0x32, 2, 0x38, 0x10, KEY, 0x32, 2, 0x10, 0xAB, 0x12, 0, 0x32, 3, 0x39, 0x40, 0xCD}, 46,
    {0, 16, 16, 22, 22, 39, 39, 46},
    {TIMED, 0x32, 1, 0x10, 0x12, 0, 0x32, 2, 0x38, 0x10, TIMED, 0x32, 2, 0x10, 0xAB, 0x12, 0, 0x32, 3, 0x39, 0x40, 0xCD}, 62,
    {24, 30, 55, 62},
    {0x12, 0, 0x1A, 1, 0xB8, 0x12, 0, 0x1A, 1, 0xD8},
    {0, 1, 2, 2, 4, 5, 6}, 7,
};

// An order of two segments: gop_size, frames, where the second golden ends, the rooms, and the answer.
struct assemble_case {
    const char *name;
    const struct source *from;
    uint64_t gop_size, frames[2], last_end;
    size_t list, cues, pictures, ends, shows, header;
    uint64_t answer;
};

struct handed_out {
    uint32_t list[16], cues[16], ends[16];
    uint8_t pictures[128], shows[32], header[64];
    size_t units, cue_count, picture_len, header_len;
    uint64_t slot;
};

// What is handed out, over memory that held 0xA5.
static void expect(struct handed_out *x, const struct source *s) {
    static const uint32_t cues[] = {1, 5};
    memcpy(x->list, s->list, s->units * 4);
    memcpy(x->cues, cues, sizeof cues);
    memcpy(x->ends, s->ends, sizeof s->ends);
    memcpy(x->pictures, s->out, s->out_len);
    memcpy(x->shows, s->shows, sizeof s->shows);
    memcpy(x->header, s->out + 2, 19);
    x->units = s->units;
    x->cue_count = 2;
    x->picture_len = s->out_len;
    x->header_len = 19;
    x->slot = 3;
}

static void run_assemble(const struct assemble_case *c) {
    struct handed_out got, want;
    const uint64_t *r = c->from->ranges;
    memset(&got, 0xA5, sizeof got);
    memset(&want, 0xA5, sizeof want);
    if (!c->answer) expect(&want, c->from);
    const uint64_t segments[] = {r[0], r[1], r[2], r[3], c->frames[0], r[4], r[5], r[6], c->last_end, c->frames[1]};
    uint64_t answer = magbelo_assemble(c->from->in, c->from->in_len, segments, 10, c->gop_size, 25, 1, got.list, c->list,
                                       got.cues, c->cues, got.pictures, c->pictures, got.ends, c->ends, got.shows, c->shows,
                                       got.header, c->header, &got.units, &got.cue_count, &got.picture_len,
                                       &got.header_len, &got.slot);
    int good = answer == c->answer && !memcmp(&got, &want, sizeof got);
    printf("%s: %s\n", c->name, good ? "ok" : "FAILED");
    failures += !good;
}

// ---- the room that include/magbelo.h calls enough

// Segments with their ranges and frames; whether the sequence header has timing, and whether every cue that is reckoned with
// is there; how many OBUs the keys and goldens have, each as often as a range has it.
struct room_case {
    const char *name;
    uint8_t in[192];
    size_t in_len, segments;
    uint64_t numbers[15], gop_size;
    int timed, all_cues;
    size_t sequence_obus, other_obus;
};

// A sequence header with 32 operating points, the longest by far: 98 bytes, and 107 once it is timed.
#define LONG 0x03, 0xfb, 0xed, 0x07, 0xc0, 0x03, 0xe2, 0x38, 0xa2, 0x46, 0x33, 0xdc, 0x00, 0x0f, 0xf5, 0x45, 0x3c, 0x80, \
    0x06, 0xf9, 0xa9, 0x00, 0x6c, 0x00, 0x08, 0xfc, 0x01, 0x3f, 0x90, 0x00, 0x6f, 0x80, 0x00, 0x06, 0xc0, 0x00, 0x1f, 0x00, \
    0x04, 0x3e, 0x00, 0x1f, 0xfe, 0x27, 0xd0, 0xe8, 0x00, 0x74, 0x4a, 0x33, 0xdc, 0x00, 0x01, 0x11, 0x00, 0xfc, 0x00, 0x07, \
    0xc8, 0x00, 0x10, 0x00, 0x07, 0xe8, 0x00, 0x03, 0xc0, 0x01, 0xf6, 0x80, 0x01, 0x01, 0x00, 0x1c, 0x00, 0x08, 0xa5, 0x33, \
    0xe8, 0x47, 0x16, 0xd5, 0x00, 0x0f, 0xbb, 0xcb, 0xc8, 0xc3, 0xd8, 0x02, 0x00, 0x02, 0x17, 0x9f, 0x50, 0x10, 0xd0, 0x02

static const struct room_case room_cases[] = {
    {"one board", {KEY, 0x32, 1, 0x10, 0x12, 0, 0x32, 2, 0x38, 0x10}, 22, 1, {0, 16, 16, 22, 2}, 3, 0, 1, 1, 4},
    {"one board, gop_size 2", {KEY, 0x32, 1, 0x10, 0x12, 0, 0x32, 2, 0x38, 0x10}, 22, 1, {0, 16, 16, 22, 7}, 2, 0, 0, 1, 4},
    {"one timed board, gop_size 2", {TIMED, 0x32, 1, 0x10, 0x12, 0, 0x32, 2, 0x38, 0x10}, 30, 1, {0, 24, 24, 30, 6}, 2, 1, 0, 1, 4},
    {"as many cues as there may be", {TIMED, 0x32, 1, 0x10, 0x12, 0, 0x32, 2, 0x38, 0x10}, 30, 1, {0, 24, 24, 30, 5}, 3, 1, 1, 1, 4},
    {"ranges that overlap", {KEY, 0x32, 1, 0x10, 0x12, 0, 0x32, 2, 0x38, 0x10}, 22, 3,
     {0, 16, 16, 22, 4, 0, 16, 16, 22, 1, 0, 16, 16, 22, 3}, 3, 0, 0, 3, 12},
    {"timed ranges that overlap", {TIMED, 0x32, 1, 0x10, 0x12, 0, 0x32, 2, 0x38, 0x10}, 30, 3,
     {0, 24, 24, 30, 4, 0, 24, 24, 30, 1, 0, 24, 24, 30, 3}, 3, 1, 0, 3, 12},
    {"a long header, empty ones in the golden, frames without a size",
     {0x0A, 98, LONG, 0x30, 0x10, 0, 0, 0, 0, 0, 0x0A, 0, 0x0A, 0, 0x30, 0x38, 0xFF, 0xFF, 0xFF, 0xFF, 0xFF}, 118, 2,
     {0, 107, 107, 118, 4, 0, 107, 107, 118, 9}, 3, 0, 0, 6, 4},
};

enum { LIST, CUES, PICTURES, ENDS, SHOWS, HEADER, SLICES };

// The header's table, for a case.
static void enough(const struct room_case *c, size_t room[SLICES]) {
    size_t n = c->segments, frames = 0, lengths = 0;
    for (const uint64_t *s = c->numbers; s < c->numbers + 5 * n; s += 5) {
        lengths += s[1] - s[0] + s[3] - s[2];
        frames += s[4];
    }
    room[LIST] = frames;
    room[CUES] = frames / c->gop_size + n;
    room[PICTURES] = c->timed ? lengths : lengths + 410 * c->sequence_obus + 8 * c->other_obus;
    room[ENDS] = 2 * n;
    room[SHOWS] = 5 * n;
    room[HEADER] = c->timed ? 19 + 8 : 400;
}

static uint64_t assemble_in(const struct room_case *c, const size_t room[SLICES], size_t used[SLICES]) {
    static uint32_t list[64], cues[64], ends[16];
    static uint8_t pictures[4096], shows[32], header[512];
    uint64_t slot;
    used[ENDS] = 2 * c->segments;
    used[SHOWS] = 5 * c->segments;
    return magbelo_assemble(c->in, c->in_len, c->numbers, 5 * c->segments, c->gop_size, 25, 1, list, room[LIST], cues,
                            room[CUES], pictures, room[PICTURES], ends, room[ENDS], shows, room[SHOWS], header, room[HEADER],
                            &used[LIST], &used[CUES], &used[PICTURES], &used[HEADER], &slot);
}

// Enough is enough, what is used is enough, and one less of what is used is not. Of list, ends and shows, and of a timed
// header's pictures, what the header says is what is used.
static void run_room(const struct room_case *c) {
    size_t room[SLICES], used[SLICES], again[SLICES];
    enough(c, room);
    int good = !assemble_in(c, room, used);
    good = good && used[LIST] == room[LIST] && used[ENDS] == room[ENDS] && used[SHOWS] == room[SHOWS];
    good = good && (!c->timed || used[PICTURES] == room[PICTURES]) && (!c->all_cues || used[CUES] == room[CUES]);
    good = good && !assemble_in(c, used, again) && !memcmp(used, again, sizeof used);
    for (int i = 0; i < SLICES; i++) {
        used[i]--;
        good = good && assemble_in(c, used, again) == 35;
        used[i]++;
    }
    printf("room for %s: %s\n", c->name, good ? "ok" : "FAILED");
    failures += !good;
}

// Room for a stream's units: one OBU without a size needs all the bytes, empty frames and one without a size all the ends.
static void run_stream_room(size_t len) {
    static uint8_t data[20000], out[20008];
    static uint32_t ends[10000];
    size_t room = len + (len > 16384 ? 3 : len > 128 ? 2 : 1), slots = (len + 1) / 2, bytes, units;
    memset(data, 0, sizeof data);
    data[0] = 0x30;
    int good = !magbelo_split_obu_stream(data, len, out, room, ends, slots, &bytes, &units) && bytes == room;
    good = good && magbelo_split_obu_stream(data, len, out, room - 1, ends, slots, &bytes, &units) == 35;
    for (size_t i = 0; i < len; i += 2) data[i] = i + 1 < len ? 0x32 : 0x30;
    good = good && !magbelo_split_obu_stream(data, len, out, room, ends, slots, &bytes, &units) && units == slots;
    good = good && magbelo_split_obu_stream(data, len, out, room, ends, slots - 1, &bytes, &units) == 35;
    printf("room for a stream of %zu bytes: %s\n", len, good ? "ok" : "FAILED");
    failures += !good;
}

// Nothing given and nothing lent: the pointers are null. An empty stream has no units; no segments are 21.
static void run_nulls(void) {
    size_t bytes = 77, units = 88, cues = 77, pictures = 77, header = 77;
    uint64_t slot = 77;
    int good = !magbelo_split_obu_stream(NULL, 0, NULL, 0, NULL, 0, &bytes, &units) && !bytes && !units;
    units = 77;
    good = good && magbelo_assemble(NULL, 0, NULL, 0, 3, 25, 1, NULL, 0, NULL, 0, NULL, 0, NULL, 0, NULL, 0, NULL, 0, &units,
                                    &cues, &pictures, &header, &slot) == 21;
    good = good && units == 77 && cues == 77 && pictures == 77 && header == 77 && slot == 77;
    printf("null pointers: %s\n", good ? "ok" : "FAILED");
    failures += !good;
}

int main(void) {
    static const struct assemble_case orders[] = {
        {"the listing, room to spare", &listing, 3, {4, 1}, 44, 16, 16, 128, 16, 32, 64, 0},
        {"the listing, room just enough", &listing, 3, {4, 1}, 44, 5, 2, 60, 4, 10, 19, 0},
        {"a list entry short", &listing, 3, {4, 1}, 44, 4, 2, 60, 4, 10, 19, 35},
        {"a cue short", &listing, 3, {4, 1}, 44, 5, 1, 60, 4, 10, 19, 35},
        {"a picture byte short", &listing, 3, {4, 1}, 44, 5, 2, 59, 4, 10, 19, 35},
        {"an end short", &listing, 3, {4, 1}, 44, 5, 2, 60, 3, 10, 19, 35},
        {"a show byte short", &listing, 3, {4, 1}, 44, 5, 2, 60, 4, 9, 19, 35},
        {"a header byte short", &listing, 3, {4, 1}, 44, 5, 2, 60, 4, 10, 18, 35},
        {"a range past the end", &listing, 3, {4, 1}, 45, 16, 16, 128, 16, 32, 64, 36},
        {"gop_size 1", &listing, 1, {4, 1}, 44, 16, 16, 128, 16, 32, 64, 22},
        {"one frame in all", &listing, 3, {1, 0}, 44, 16, 16, 128, 16, 32, 64, 23},
        {"no frames in segment 1", &listing, 3, {4, 0}, 44, 16, 16, 128, 16, 32, 64, 24 + (2ull << 32)},
        {"too many frames", &listing, 3, {5000000, 1}, 44, 16, 16, 128, 16, 32, 64, 25},
        {"a golden without a frame in segment 1", &listing, 3, {4, 1}, 40, 16, 16, 128, 16, 32, 64, 28 + (2ull << 32)},
        {"a golden cut in segment 1", &listing, 3, {4, 1}, 43, 16, 16, 128, 16, 32, 64, 5 + (2ull << 32)},
        {"two different segments, room to spare", &different, 3, {4, 3}, 46, 16, 16, 128, 16, 32, 64, 0},
        {"two different segments, room just enough", &different, 3, {4, 3}, 46, 7, 2, 62, 4, 10, 19, 0},
        {"two different segments, a picture byte short", &different, 3, {4, 3}, 46, 7, 2, 61, 4, 10, 19, 35},
        {"two different segments, a golden cut in segment 1", &different, 3, {4, 3}, 45, 16, 16, 128, 16, 32, 64, 5 + (2ull << 32)},
    };
    static const struct stream_case cases[] = {
        {"empty stream", {0}, 0, 0, 0, 0, {0}, 0, {0}, 0},
        {"unsized frame", {0x30}, 1, 2, 1, 0, {0x32, 0x00}, 2, {2}, 1},
        {"delimiter moved", {0x32, 0, 0x12, 0, 0x2A, 0}, 6, 64, 16, 0, {0x12, 0, 0x32, 0, 0x2A, 0}, 6, {6}, 1},
        {"two frames", {0x12, 0, 0x32, 0, 0x32, 0}, 6, 64, 16, 0, {0x12, 0, 0x32, 0, 0x32, 0}, 6, {4, 6}, 2},
        {"no frame", {0x12, 0, 0x2A, 0, 0x12, 0}, 6, 64, 16, 0, {0x12, 0, 0x2A, 0, 0x12, 0}, 6, {6}, 1},
        {"forbidden bit", {0x80}, 1, 64, 16, 1, {0}, 0, {0}, 0},
        {"reserved type", {0x4A, 0}, 2, 64, 16, 2, {0}, 0, {0}, 0},
        {"no extension", {0x36}, 1, 64, 16, 3, {0}, 0, {0}, 0},
        {"no size", {0x32}, 1, 64, 16, 4, {0}, 0, {0}, 0},
        {"overrun behind a frame", {0x32, 0, 0x32, 1}, 4, 64, 16, 5, {0}, 0, {0}, 0},
        {"one byte short", {0x30}, 1, 1, 1, 35, {0}, 0, {0}, 0},
        {"no end", {0x30}, 1, 2, 0, 35, {0}, 0, {0}, 0},
    };
    for (size_t i = 0; i < sizeof cases / sizeof *cases; i++) run(&cases[i]);
    for (size_t i = 0; i < sizeof orders / sizeof *orders; i++) run_assemble(&orders[i]);
    run_nulls();
    static const size_t lengths[] = {1, 2, 3, 128, 129, 16384, 16385};
    for (size_t i = 0; i < sizeof lengths / sizeof *lengths; i++) run_stream_room(lengths[i]);
    for (size_t i = 0; i < sizeof room_cases / sizeof *room_cases; i++) run_room(&room_cases[i]);
    size_t all = sizeof cases / sizeof *cases + sizeof orders / sizeof *orders + 1;
    all += sizeof lengths / sizeof *lengths + sizeof room_cases / sizeof *room_cases;
    printf("%zu passed, %d failed\n", all - (size_t)failures, failures);
    return failures != 0;
}
