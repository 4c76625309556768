// Answers the requests `stream` and `assemble` of replay's line protocol by the functions that include/magbelo.h exports to
// C; anything else is a bad line. `room B E T ` limits the bytes, and the ends or list entries, and the cues.
// Behind an answer stands ` dirty` where memory has changed that the answer does not account for, ` rooms` where an
// accepted list is not made in just the room that it fills, or is made in one element less of any slice, and ` structs`
// where assembly by way of segment structs answers otherwise or leaves other bytes in any slice.
#include "../bench/ours.h"

#include <stdbool.h>
#include <stdio.h>
#include <stdlib.h>
#include <string.h>

enum { LINE = 65536, BYTES = 65536, SLOTS = 32768, GUARD = 64, MARK = 0xA5, STRUCTS = 64 };

struct word {
    const char *at;
    size_t len;
};

// Lent memory: so many elements of a size. GUARD bytes behind them are looked at too.
struct lent {
    size_t size, room;
    uint8_t at[4 * SLOTS + BYTES + GUARD];
};

static struct word words[LINE + 1];
static uint8_t data[LINE];
static uint64_t segments[5 * LINE];

static void lend(struct lent *l, size_t size, size_t room) {
    l->size = size;
    l->room = room;
    memset(l->at, MARK, size * room + GUARD);
}

// Each byte behind those used is the mark, as the first of them is the mark and each next one the same.
static bool untouched(const struct lent *l, size_t used) {
    const uint8_t *from = l->at + l->size * used;
    return *from == MARK && !memcmp(from, from + 1, l->size * (l->room - used) + GUARD - 1);
}

static uint32_t number_in(const struct lent *l, size_t i) {
    uint32_t v;
    memcpy(&v, l->at + 4 * i, 4);
    return v;
}

static size_t least(size_t a, size_t b) {
    return a < b ? a : b;
}

// ---- words

static size_t split_words(const char *line, size_t len) {
    size_t n = 0, start = 0;
    for (size_t i = 0; i <= len; i++)
        if (i == len || line[i] == ' ') {
            words[n++] = (struct word){line + start, i - start};
            start = i + 1;
        }
    return n;
}

static bool is(struct word w, const char *text) {
    return w.len == strlen(text) && !memcmp(w.at, text, w.len);
}

static bool number(struct word w, uint64_t most, uint64_t *v) {
    *v = 0;
    for (size_t i = 0; i < w.len; i++) {
        unsigned digit = (unsigned)w.at[i] - '0';
        if (digit > 9 || *v > (most - digit) / 10) return false;
        *v = 10 * *v + digit;
    }
    return w.len > 0;
}

static int nibble(char c) {
    return c >= '0' && c <= '9' ? c - '0' : c >= 'a' && c <= 'f' ? c - 'a' + 10 : -1;
}

// The bytes of a word, put at data[*at]; *at moves behind them.
static bool bytes(struct word w, size_t *at) {
    if (is(w, "-")) return true;
    for (size_t i = 0; i + 1 < w.len; i += 2) {
        int high = nibble(w.at[i]), low = nibble(w.at[i + 1]);
        if (high < 0 || low < 0) return false;
        data[(*at)++] = (uint8_t)(16 * high + low);
    }
    return w.len > 0 && w.len % 2 == 0;
}

static void print_bytes(const uint8_t *at, size_t len) {
    static const char digits[] = "0123456789abcdef";
    if (!len) putchar('-');
    for (size_t i = 0; i < len; i++) {
        putchar(digits[at[i] >> 4]);
        putchar(digits[at[i] & 15]);
    }
}

// ---- requests: each answers whether the words are one

struct rooms {
    bool given;
    uint64_t bytes, ends, cues;
};

static bool stream(const struct word *w, size_t n, struct rooms r) {
    static struct lent out, ends;
    size_t len = 0, used = 77, units = 88;
    if (n != 1 || !bytes(w[0], &len)) return false;
    lend(&out, 1, r.given ? r.bytes : len + 8);
    lend(&ends, 4, r.given ? least(r.ends, SLOTS) : len / 2 + 1);
    uint32_t answer =
        magbelo_split_obu_stream(data, len, out.at, out.room, (uint32_t *)ends.at, ends.room, &used, &units);
    if (answer) {
        bool same = used == 77 && units == 88 && untouched(&out, 0) && untouched(&ends, 0);
        printf("no %u%s\n", answer, same ? "" : " dirty");
        return true;
    }
    printf("ok %zu", units);
    for (size_t i = 0, at = 0; i < units; at = number_in(&ends, i++)) {
        putchar(' ');
        print_bytes(out.at + at, number_in(&ends, i) - at);
    }
    puts(untouched(&out, used) && untouched(&ends, units) ? "" : " dirty");
    return true;
}

// A list as it is asked for, and what a call answered.
struct order {
    size_t bytes, count;
    uint64_t gop, fps, den;
};

enum { LIST, CUES, PICTURES, ENDS, SHOWS, HEADER, LENT };

struct called {
    struct lent lent[LENT];
    size_t units, cues, picture, header;
    uint64_t slot, answer;
};

static void lend_all(struct called *c, const size_t room[LENT]) {
    static const size_t size[LENT] = {4, 4, 1, 4, 1, 1};
    for (int i = 0; i < LENT; i++) lend(&c->lent[i], size[i], room[i]);
}

// Calls assembly with so much room in each slice.
static void call(const struct order *o, struct called *c, const size_t room[LENT]) {
    struct lent *l = c->lent;
    lend_all(c, room);
    c->units = c->cues = c->picture = c->header = 77;
    c->slot = 88;
    c->answer = magbelo_assemble(data, o->bytes, segments, 5 * o->count, o->gop, (uint32_t)o->fps, (uint32_t)o->den,
                                 (uint32_t *)l[LIST].at, l[LIST].room, (uint32_t *)l[CUES].at, l[CUES].room,
                                 l[PICTURES].at, l[PICTURES].room, (uint32_t *)l[ENDS].at, l[ENDS].room, l[SHOWS].at,
                                 l[SHOWS].room, l[HEADER].at, l[HEADER].room, &c->units, &c->cues, &c->picture,
                                 &c->header, &c->slot);
}

// Whether the same order by way of segment structs is answered in the same way, to the last byte of each slice. More boards
// than it takes are an answer of its own, and change nothing.
static bool same_by_structs(const struct order *o, const struct called *c, const size_t room[LENT]) {
    static struct called other;
    struct lent *l = other.lent;
    lend_all(&other, room);
    uint64_t answer = bench_assemble_segments(
        data, o->bytes, segments, 5 * o->count, o->gop, (uint32_t)o->fps, (uint32_t)o->den, (uint32_t *)l[LIST].at,
        l[LIST].room, (uint32_t *)l[CUES].at, l[CUES].room, l[PICTURES].at, l[PICTURES].room, (uint32_t *)l[ENDS].at,
        l[ENDS].room, l[SHOWS].at, l[SHOWS].room, l[HEADER].at, l[HEADER].room);
    bool fits = o->count <= STRUCTS, same = answer == (fits ? c->answer : UINT32_MAX);
    for (int i = 0; i < LENT; i++)
        same = same && (fits ? !memcmp(l[i].at, c->lent[i].at, l[i].size * l[i].room + GUARD) : untouched(&l[i], 0));
    return same;
}

// How many elements of each slice an answer fills.
static void fill_of(const struct order *o, const struct called *c, size_t used[LENT]) {
    const size_t made[LENT] = {c->units, c->cues, c->picture, 2 * o->count, 5 * o->count, c->header};
    for (int i = 0; i < LENT; i++) used[i] = c->answer ? 0 : made[i];
}

static bool is_clean(const struct order *o, const struct called *c) {
    size_t used[LENT];
    bool same = !c->answer || (c->units == 77 && c->cues == 77 && c->picture == 77 && c->header == 77 && c->slot == 88);
    fill_of(o, c, used);
    for (int i = 0; i < LENT; i++) same = same && untouched(&c->lent[i], used[i]);
    return same;
}

// The same list in just the room that it fills, and not in one element less.
static bool needs_its_room(const struct order *o, const struct called *c) {
    static struct called again;
    size_t used[LENT];
    fill_of(o, c, used);
    call(o, &again, used);
    bool good = !again.answer && is_clean(o, &again) && again.slot == c->slot;
    for (int i = 0; i < LENT; i++)
        good = good && !memcmp(again.lent[i].at, c->lent[i].at, used[i] * c->lent[i].size);
    for (int i = 0; i < LENT; i++) {
        used[i]--;
        call(o, &again, used);
        good = good && again.answer == 35 && is_clean(o, &again);
        used[i]++;
    }
    return good;
}

static void print_list(const struct called *c) {
    printf("ok %zu %llu ", c->units, (unsigned long long)c->slot);
    print_bytes(c->lent[HEADER].at, c->header);
    for (size_t i = 0; i < c->cues; i++) printf("%c%u", i ? ',' : ' ', number_in(&c->lent[CUES], i));
    for (size_t i = 0; i < c->units; i++) {
        uint32_t entry = number_in(&c->lent[LIST], i), segment = entry / 4, k = 2 * segment + entry % 4;
        putchar(' ');
        if (entry % 4 == 2) {
            print_bytes(c->lent[SHOWS].at + 5 * segment, 5);
            continue;
        }
        uint32_t start = k ? number_in(&c->lent[ENDS], k - 1) : 0;
        print_bytes(c->lent[PICTURES].at + start, number_in(&c->lent[ENDS], k) - start);
    }
}

// The segments' numbers and bytes, and their frames added up as far as there is room for a list.
static bool read_segments(const struct word *w, size_t n, struct order *o, size_t *frames) {
    o->count = n / 3;
    o->bytes = *frames = 0;
    for (size_t i = 0; i < o->count; i++) {
        uint64_t *s = segments + 5 * i;
        s[0] = o->bytes;
        if (!bytes(w[3 * i], &o->bytes)) return false;
        s[1] = s[2] = o->bytes;
        if (!bytes(w[3 * i + 1], &o->bytes)) return false;
        s[3] = o->bytes;
        if (!number(w[3 * i + 2], UINT64_MAX, &s[4])) return false;
        *frames = least(*frames + least(s[4], SLOTS), SLOTS);
    }
    return n % 3 == 0;
}

static bool assemble(const struct word *w, size_t n, struct rooms r) {
    static struct called made;
    struct order o;
    size_t frames;
    if (n < 3 || !number(w[0], UINT64_MAX, &o.gop) || !number(w[1], UINT32_MAX, &o.fps) ||
        !number(w[2], UINT32_MAX, &o.den) || !read_segments(w + 3, n - 3, &o, &frames))
        return false;
    // Ample room: what include/magbelo.h says, but for pictures and header.
    size_t room[LENT] = {frames, o.gop ? frames / o.gop + o.count : 0, BYTES, 2 * o.count, 5 * o.count, o.bytes + 408};
    if (r.given) {
        room[LIST] = least(r.ends, SLOTS);
        room[CUES] = least(r.cues, SLOTS);
        room[PICTURES] = r.bytes;
    }
    call(&o, &made, room);
    bool clean = is_clean(&o, &made);
    if (!made.answer) print_list(&made);
    else printf("no %u", (uint32_t)made.answer);
    if (made.answer >> 32) printf(" %llu", (unsigned long long)(made.answer >> 32) - 1);
    fputs(clean ? "" : " dirty", stdout);
    fputs(same_by_structs(&o, &made, room) ? "" : " structs", stdout);
    puts(made.answer || needs_its_room(&o, &made) ? "" : " rooms");
    return true;
}

// Whether the line is a request; it is answered then.
static bool answered(const char *line, size_t len) {
    struct rooms r = {false, 0, 0, 0};
    size_t n = len > LINE ? 0 : split_words(line, len), first = 0;
    if (n > 4 && is(words[0], "room")) {
        r.given = true;
        if (!number(words[1], BYTES, &r.bytes) || !number(words[2], UINT64_MAX, &r.ends) ||
            !number(words[3], UINT64_MAX, &r.cues))
            return false;
        first = 4;
    }
    if (n > first && is(words[first], "stream")) return stream(words + first + 1, n - first - 1, r);
    if (n > first && is(words[first], "assemble")) return assemble(words + first + 1, n - first - 1, r);
    return false;
}

int main(void) {
    char *line = NULL;
    size_t room = 0;
    for (ssize_t len; (len = getline(&line, &room, stdin)) >= 0;) {
        if (len && line[len - 1] == '\n') len--;
        if (!answered(line, (size_t)len)) puts("bad line");
    }
    free(line);
    return 0;
}
