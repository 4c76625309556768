// Real streams by ours, for tests/real-streams.
//   units stream FILE OUT          how many units the stream has; their bytes, one behind the other
//   units annexb FILE OUT          the same of Annex B
//   units to-annexb FILE OUT       the stream's units as Annex B
//   units to-sized-annexb FILE OUT the same, each OBU with its size inside
//   units from-ivf FILE OUT        the packets of an IVF file, one behind the other
#include "../bench/ours.h"

#include <stdio.h>
#include <stdlib.h>
#include <string.h>

enum { ROOM = 64 << 20, SLOTS = 1 << 20 };

static uint8_t data[ROOM], units[ROOM], out[ROOM];
static uint32_t ends[SLOTS];

static int failed(const char *why) {
    fprintf(stderr, "units: %s\n", why);
    return 1;
}

static int save(const char *path, const uint8_t *bytes, size_t len) {
    FILE *f = fopen(path, "wb");
    if (!f || fwrite(bytes, 1, len, f) != len || fclose(f)) return failed("can't write");
    return 0;
}

// A header of 32 bytes; before each packet its size and eight bytes of time.
static size_t packets(size_t len) {
    size_t at = 32, n = 0;
    while (at + 12 <= len) {
        size_t size = data[at] | data[at + 1] << 8 | data[at + 2] << 16 | (size_t)data[at + 3] << 24;
        at += 12;
        if (size > len - at) return 0;
        memcpy(out + n, data + at, size);
        n += size;
        at += size;
    }
    return n;
}

static size_t put_leb128(uint8_t *to, size_t v) {
    size_t n = 0;
    for (; v >= 128; v /= 128) to[n++] = v % 128 + 128;
    to[n++] = v;
    return n;
}

// What the bytes take with their length before them.
static size_t framed(uint8_t *to, const uint8_t *bytes, size_t len) {
    size_t n = put_leb128(to, len);
    memcpy(to + n, bytes, len);
    return n + len;
}

// How many bytes an OBU in written form has.
static size_t obu_len(const uint8_t *obu) {
    size_t n = obu[0] & 4 ? 2 : 1, size = 0;
    for (int shift = 0;; shift += 7) {
        size |= (size_t)(obu[n] & 127) << shift;
        if (obu[n++] < 128) return n + size;
    }
}

// The units as Annex B, a frame unit each, with the bytes of each OBU as they are: its size bit set, and its size.
static size_t sized_annexb(size_t count) {
    static uint8_t obus[ROOM], frame[ROOM];
    size_t n = 0;
    for (size_t u = 0; u < count; u++) {
        size_t m = 0;
        for (size_t at = u ? ends[u - 1] : 0, len; at < ends[u]; at += len) {
            len = obu_len(units + at);
            m += framed(obus + m, units + at, len);
        }
        n += framed(out + n, frame, framed(frame, obus, m));
    }
    return n;
}

int main(int count, char **words) {
    if (count != 4) return failed("stream|annexb|to-annexb|to-sized-annexb|from-ivf FILE OUT");
    FILE *f = fopen(words[2], "rb");
    if (!f) return failed("can't read");
    size_t len = fread(data, 1, ROOM, f);
    fclose(f);
    if (len == ROOM) return failed("the file is too large");
    const char *job = words[1];
    if (!strcmp(job, "from-ivf")) {
        size_t n = packets(len);
        return n ? save(words[3], out, n) : failed("no IVF");
    }
    size_t n = strcmp(job, "annexb") ? split_obu_stream(data, len, units, ROOM, ends, SLOTS)
                                     : bench_split_annexb(data, len, units, ROOM, ends, SLOTS);
    if (!n) return failed("refused");
    if (!strncmp(job, "to-", 3)) {
        size_t m = strcmp(job, "to-annexb") ? sized_annexb(n) : bench_write_annexb(units, ends[n - 1], ends, n, out, ROOM);
        return m ? save(words[3], out, m) : failed("not written");
    }
    printf("%zu\n", n);
    return save(words[3], units, ends[n - 1]);
}
