/*
 * Stream reading and assembly for a packaging host. Link with the archive that `tools/built capi` makes.
 *
 * For both functions:
 * - A length counts elements, not bytes: of `uint32_t *ends` it is how many ends there is room for. Pointers are
 *   aligned as their type asks.
 * - What is written may overlap no other argument. A pointer may be null where its length is 0; those to single numbers
 *   never.
 * - A refusal changes nothing. docs/REFUSALS.md has every number in plain words; 6 to 13 and 40 are those of Annex B, 41 and 42 those of
 *   scanning a frame header, and neither function does either.
 * - There is no state: calls from several threads are fine, each with memory of its own.
 * - A call takes no memory but what is lent to it and its stack: some 40 KB for assembly, under 1 KB for reading a stream.
 */
#ifndef MAGBELO_H
#define MAGBELO_H

#include <stddef.h>
#include <stdint.h>

#ifdef __cplusplus
extern "C" {
#endif

/*
 * Reads the units of an AV1 stream (low-overhead format).
 *
 * Returns 0 and writes the units' bytes, one unit behind the other, to `out`, the end of each unit to
 * `ends`, how many bytes that is to `*bytes` and how many units to `*units`; nothing behind them changes.
 * Room that is always enough, and that some streams need: in `out` data_len bytes and as many as leb128(data_len - 1) has,
 * at most 5; in `ends` half of data_len, rounded up. Or returns the number of a refusal:
 *   34  more than 4,000,000,000 bytes of input
 *    1  an OBU's forbidden bit is set
 *    2  an OBU type from 9 to 14
 *    3  an extension byte is missing
 *    4  an OBU's size is no leb128 number
 *    5  an OBU's size reaches past the end
 *   35  no room in `out` or in `ends`, which of them cannot be told; or more than 4,000,000,000 bytes of units
 */
uint32_t magbelo_split_obu_stream(const uint8_t *data, size_t data_len, uint8_t *out, size_t out_len,
                                  uint32_t *ends, size_t ends_len, size_t *bytes, size_t *units);

/*
 * Assembles segments into a unit list and a cue list.
 *
 * `segments` has five numbers for each segment: where its key unit starts and ends in `picture`, where its golden
 * unit does, and how many frames it has; `segment_numbers` counts the numbers, five times the segments. Returns 0 and
 * writes: to `list` an entry for each unit, four times its segment (from 0) plus its kind, 0 for a key, 1 for a golden, 2
 * for a show unit; to `cues` the units, counted from 1, at which playing can start; to `pictures` the key and golden
 * units by segment and to `ends` the end of each; to `shows` the show units, five bytes a segment; to `header` the
 * sequence header OBU. `*units`, `*cue_count`, `*picture_len` and `*header_len` say how many of each there are,
 * `*golden_slot` the slot of the first segment's golden. Nothing behind them changes.
 *
 * Room that is always enough, for n segments with f frames in all:
 *   list      f entries, no fewer
 *   cues      f / gop_size + n
 *   ends      2 * n, no fewer
 *   shows     5 * n bytes, no fewer
 *   header    400 bytes where the first key's sequence header has no timing (it is replaced); else its own OBU's bytes + 8
 *   pictures  the lengths of all keys and goldens added up, which ranges that overlap make more than picture_bytes. Where
 *             the sequence header has timing that is all, and no less will do; else 410 more for each of their sequence
 *             header OBUs and 8 for each other OBU
 *
 * Or returns a refusal. Its low 32 bits are the number, the high ones the segment counted from 1, or 0 where no segment
 * is to blame:
 *   34  more than 4,000,000,000 bytes of input
 *   36  a range that is not within `picture`, or numbers that are no five a segment
 *   21  there is no segment
 *   22  gop_size is 0 or 1
 *   23  fewer than two frames in all
 *   24  a segment without frames
 *   25  over 5,000,000 frames in all
 *    1  a unit that does not read: an OBU's forbidden bit is set
 *    2  an OBU type from 9 to 14
 *    3  an extension byte is missing
 *    4  an OBU's size is no leb128 number
 *    5  an OBU's size reaches past the end
 *   26  the first key has no sequence header
 *   14  its bits run out, or a frame header's
 *   15  its profile is above 2
 *   16  a uvlc number in it has 32 leading zeros or more
 *   17  it is a reduced still picture header
 *   18  it has frame ids
 *   19  it has a decoder model, and pictures at unequal intervals
 *   20  it has film grain
 *   27  a later key has another one, or none
 *   28  a unit without a frame
 *   29  a key that is no shown key frame
 *   30  a golden that only shows a frame again
 *   31  a golden that is not shown
 *   32  a golden that is a key frame
 *   33  a golden that is stored in no slot
 *   35  no room, in which slice cannot be told; or more than 4,000,000,000 bytes handed out
 */
uint64_t magbelo_assemble(const uint8_t *picture, size_t picture_bytes, const uint64_t *segments, size_t segment_numbers,
                          uint64_t gop_size, uint32_t fps, uint32_t fps_den, uint32_t *list, size_t list_len,
                          uint32_t *cues, size_t cues_len, uint8_t *pictures, size_t pictures_len, uint32_t *ends,
                          size_t ends_len, uint8_t *shows, size_t shows_len, uint8_t *header, size_t header_room,
                          size_t *units, size_t *cue_count, size_t *picture_len, size_t *header_len,
                          uint64_t *golden_slot);

#ifdef __cplusplus
}
#endif

#endif
