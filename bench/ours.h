/* What the measurements, the tests on real streams and the comparison through C call: the exported stream reading of
   `tools/built capi`, and what `tools/built bench` exports for them alone. */
#ifndef BENCH_OURS_H
#define BENCH_OURS_H

#include "../include/magbelo.h"

/* These answer how many units, packets or bytes, or 0 after a refusal. */
static inline size_t split_obu_stream(const uint8_t *data, size_t len, uint8_t *out, size_t out_len, uint32_t *ends,
                                      size_t ends_len) {
    size_t bytes, units;
    return magbelo_split_obu_stream(data, len, out, out_len, ends, ends_len, &bytes, &units) ? 0 : units;
}
size_t bench_split_annexb(const uint8_t *data, size_t len, uint8_t *out, size_t out_len, uint32_t *ends,
                          size_t ends_len);
size_t bench_write_obu_stream(const uint8_t *units, size_t len, const uint32_t *ends, size_t n, uint8_t *out,
                              size_t out_len);
size_t bench_write_annexb(const uint8_t *units, size_t len, const uint32_t *ends, size_t n, uint8_t *out,
                          size_t out_len);
size_t bench_merge_packets(const uint8_t *packets, size_t len, const uint32_t *ends, size_t n, const uint64_t *times,
                           size_t times_len, uint8_t *out, size_t out_len, uint32_t *out_ends, size_t out_ends_len,
                           uint64_t *out_times, size_t out_times_len);
size_t bench_canonicalize_tu(const uint8_t *unit, size_t len, uint8_t *out, size_t out_len);

/* Where frame headers end, in bits, summed; 0 for a refused one, and for all under a refused sequence header. */
uint64_t bench_scan(const uint8_t *sequence, size_t sequence_len, const uint8_t *frames, size_t len, const uint32_t *ends,
                    size_t n);

/* magbelo_assemble by way of a local array of segment structs, and without its counts. Answers 4294967295 where the numbers are
   no five a segment, or are those of more than 64. */
uint64_t bench_assemble_segments(const uint8_t *picture, size_t picture_bytes, const uint64_t *segments,
                                 size_t segment_numbers, uint64_t gop_size, uint32_t fps, uint32_t fps_den, uint32_t *list,
                                 size_t list_len, uint32_t *cues, size_t cues_len, uint8_t *pictures, size_t pictures_len,
                                 uint32_t *ends, size_t ends_len, uint8_t *shows, size_t shows_len, uint8_t *header,
                                 size_t header_room);

#endif
