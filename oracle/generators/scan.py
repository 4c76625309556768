"""Whole frame headers scanned in turn, from empty slots."""

import itertools

from model.obu import FRAME_TYPES, SEQUENCE_HEADER, obus_of
from model.uheader.branches import CASES, CUT
from model.uheader.frame import EMPTY

from .base import PICKED, corpus_streams, damaged, layer, request
from .header import MODEL, MONOCHROME, PLAIN, TIMED, flipped
from .header_bits import bytes_of, closed, make_header
from .scan_bits import (ANY, FOUND, NEAR_HINTS, SCANNED, SHOWN_KEY, SORTS, cuts, followed, make_scan_frame, make_scan_header,
                        make_sequence)

# A shown key and an inter frame under PLAIN.
KEY = '190000aa'
GOLDEN = '3c10000002800000bb'

SMALL_SCAN = [
    f'scan {PLAIN}', 'scan -', f'scan {PLAIN[:-2]}', 'scan 60', 'scan 60 10', f'scan {PLAIN[:-2]} {KEY}',
    f'scan {TIMED}', f'scan {MONOCHROME}', f'scan {MONOCHROME} {KEY}', 'scan 080cffc00080', f'scan 080cffc00080 {KEY} -',
    # Lossless by the Rust and not by AV1; a delta of -61, which is -3 to the Rust; a found slot that is empty, with uniform
    # and with explicit tiles.
    f'scan {PLAIN} 1080600000000000', f'scan {PLAIN} 1080618000000000', f'scan {PLAIN} 33c200000148000000',
    f'scan {PLAIN} 360200000140',
    f'scan {PLAIN} {KEY} 33c200000148000000', f'scan {PLAIN} {KEY} 360200000140', f'scan {PLAIN} 360200000140 {KEY}',
    f'scan {PLAIN} {KEY} {GOLDEN}', f'scan {PLAIN} {GOLDEN}', f'scan {PLAIN} 10', f'scan {PLAIN} -',
    # A refused frame leaves the slots: shown again, a shown key that is cut, one byte of a golden.
    f'scan {PLAIN} {KEY} 80 {GOLDEN}', f'scan {PLAIN} {KEY} 10 {GOLDEN}', f'scan {PLAIN} {KEY} {GOLDEN} 1900',
    f'scan {PLAIN} {KEY} 3c {GOLDEN}', f'scan {PLAIN} ff', f'scan {PLAIN} 7f', f'scan {TIMED} {KEY} {GOLDEN}',
]

BAD_SCAN = [
    'scan', 'scan ', 'scan 0', 'scan AA', 'scan x', f'scan {PLAIN} ', f'scan {PLAIN} 0', f'scan {PLAIN} 10 ',
    f'scan {PLAIN}  10', f'scan {PLAIN} 10  10', f'scan {PLAIN} AA', f'scan {PLAIN} 10 x', f'scan 0 {KEY}', 'scan 60 0',
    f'scan  {PLAIN} {KEY}', f'room 1 1 scan {PLAIN} {KEY}', f'Scan {PLAIN}',
]


def picked_scan():
    return SMALL_SCAN + real_requests(40)


PICKED['scan'] = picked_scan


@layer
def scan(rng, count, exhaustive):
    yield from picked_scan()
    yield from BAD_SCAN
    yield from real_requests(None)
    yield from spoiled_real_requests(rng)
    yield from refused_requests(rng)
    yield from short_frames(rng, exhaustive)
    yield from kind_requests(rng)
    yield from hint_requests(rng)
    yield from time_requests(rng)
    yield from found_requests(rng)
    for _ in range(3):
        yield from every_cut(rng)
    yield from cut_requests(rng, 400 if exhaustive else 60)
    yield from flipped_requests(rng, 200 if exhaustive else 30)
    yield from long_requests(rng)
    yield from random_requests(rng, count)


# Real encoders' frames.

def real_sequences():
    """Each real stream's sequence header and frames, all under the first header."""
    found = []
    for stream in corpus_streams():
        obus = obus_of(stream)
        headers = [payload for kind, _, payload in obus if kind == SEQUENCE_HEADER]
        frames = [payload for kind, _, payload in obus if kind in FRAME_TYPES]
        if headers:
            found.append((headers[0], frames))
    return found


def real_requests(longest):
    """With as many bytes of each frame, of which the header has the first."""
    return list(dict.fromkeys(request('scan', header, *[frame[:longest] for frame in frames])
                              for header, frames in real_sequences()))


def spoiled_real_requests(rng):
    """Each bit of the first bytes turned, and the frame cut at each of them, between the other frames."""
    for header, frames in real_sequences():
        short = [frame[:40] for frame in frames]
        for place, frame in enumerate(short):
            for i in range(8 * min(len(frame), 30)):
                yield request('scan', header, *short[:place], flipped(frame, i), *short[place:])
            for length in range(min(len(frame), 30)):
                yield request('scan', header, *short[:place], frame[:length], *short[place:])
        for _ in range(20):
            yield request('scan', damaged(rng, header), *short)


# Systematic requests.

def scan_request(rng, payload, texts):
    return request('scan', payload, *[followed(rng, text) for text in texts])


def refused_requests(rng):
    """What a scan refuses of a header, in every combination; frames that would be refused too, and no frame."""
    for values in itertools.product((0, 1), repeat=len(SCANNED)):
        for _ in range(12):
            text, _ = make_header(rng, seq_profile=0, ticks_zeros=0, **dict(zip(SCANNED, values)))
            payload = closed(text)
            yield request('scan', payload)
            yield request('scan', payload, b'')
            yield request('scan', payload, b'\x80', rng.randbytes(20))
            yield request('scan', bytes_of(text)[:-1], b'\x80')
    for pinned in (dict(seq_profile=3), dict(timing_info_present=1, equal_picture_interval=1, ticks_zeros=32)):
        text, _ = make_header(rng, **{**SCANNED, 'seq_profile': 0, **pinned})
        yield request('scan', closed(text), b'\x80')


def short_frames(rng, exhaustive):
    """Every frame of one byte, alone and behind a key; of two bytes under some headers."""
    for _ in range(8):
        payload, h = make_scan_header(rng)
        first = bytes_of(make_sequence(rng, h, 1)[0])
        for value in range(256):
            yield request('scan', payload, bytes([value]))
            yield request('scan', payload, first, bytes([value]), first)
    for _ in range(4 if exhaustive else 0):
        payload, h = make_scan_header(rng)
        first = bytes_of(make_sequence(rng, h, 1)[0])
        for value in range(65536):
            yield request('scan', payload, first, value.to_bytes(2, 'big') + first)


def kind_requests(rng):
    """Each kind of frame, shown or not, under headers of each way with the screen content tools."""
    for kind, shown, choice, force in itertools.product(range(4), (0, 1), range(3), range(3)):
        pinned = dict(seq_choose_screen_content_tools=int(choice == 2), seq_force_screen_content_tools=choice % 2,
                      seq_choose_integer_mv=int(force == 2), seq_force_integer_mv=force % 2)
        sort = dict(ANY, show_existing_frame=0, frame_type=kind, show_frame=shown)
        for _ in range(8):
            payload, h = make_scan_header(rng, **pinned)
            yield scan_request(rng, payload, make_sequence(rng, h, 3, [sort]))


def hint_requests(rng):
    """Order hints of every width."""
    for bits, _ in itertools.product(range(9), range(80)):
        payload, h = make_scan_header(rng, enable_order_hint=int(bits > 0), order_hint_bits_minus_1=max(bits - 1, 0))
        yield scan_request(rng, payload, make_sequence(rng, h, 5, [NEAR_HINTS]))


def time_requests(rng):
    """Presentation and removal times of every length, for several operating points of any idc."""
    for length, points, equal in itertools.product(range(32), (0, 1, 5, 31), (0, 1)):
        pinned = dict(MODEL, equal_picture_interval=equal, operating_points_cnt_minus_1=points,
                      buffer_removal_time_length_minus_1=length, frame_presentation_time_length_minus_1=31 - length)
        payload, h = make_scan_header(rng, **pinned)
        texts = make_sequence(rng, h, 2, [dict(ANY, buffer_removal_time_present_flag=1)])
        yield scan_request(rng, payload, texts)
        for size in range(len(texts[-1]) // 8 + 1):
            if size < 12 or points < 5:
                yield request('scan', payload, bytes_of(texts[0]), bytes_of(texts[1])[:size])


def found_requests(rng):
    """A found reference in each of the seven places, and in none."""
    for place, _ in itertools.product(range(8), range(60)):
        sort = {**FOUND, **{f'found_ref {i}': int(i == place) for i in range(7)}}
        payload, h = make_scan_header(rng)
        yield scan_request(rng, payload, make_sequence(rng, h, 4, [ANY, sort]))


# Far more sequences than it takes to meet every element where a byte ends.
MOST_TRIES = 20_000


def every_cut(rng):
    """For each element a frame whose bytes run out in it, behind whole frames."""
    left = {name for name, outcome in CASES if outcome == CUT}
    for _ in range(MOST_TRIES):
        if not left:
            return
        payload, h = make_scan_header(rng)
        frames, slots = [], EMPTY
        for sort in (SHOWN_KEY, *rng.choices(SORTS, k=3)):
            choices, slots = make_scan_frame(rng, h, slots, sort)
            for name, frame in cuts(choices):
                if name in left:
                    left.remove(name)
                    yield request('scan', payload, *frames, frame)
            frames.append(bytes_of(choices.text()))


def cut_requests(rng, rounds):
    """Each frame of a sequence cut at every byte, the others behind it."""
    for _ in range(rounds):
        payload, h = make_scan_header(rng)
        frames = [bytes_of(text) for text in make_sequence(rng, h, 3)]
        for place, frame in enumerate(frames):
            for length in range(min(len(frame), 150)):
                yield request('scan', payload, *frames[:place], frame[:length], *frames[place + 1:])


def flipped_requests(rng, rounds):
    """Each bit of each frame turned."""
    for _ in range(rounds):
        payload, h = make_scan_header(rng)
        frames = [followed(rng, text) for text in make_sequence(rng, h, 2)]
        for place, frame in enumerate(frames):
            for i in range(min(8 * len(frame), 400)):
                yield request('scan', payload, *frames[:place], flipped(frame, i), *frames[place + 1:])


def long_requests(rng):
    """Many frames in turn."""
    for count in (20, 50, 100):
        for _ in range(5):
            payload, h = make_scan_header(rng, **size_limits(9))
            line = scan_request(rng, payload, make_sequence(rng, h, count))
            if len(line) < 60_000:
                yield line


def size_limits(bits):
    return dict(frame_width_bits_minus_1=bits - 1, frame_height_bits_minus_1=bits - 1, max_frame_width_minus_1=2 ** bits - 1,
                max_frame_height_minus_1=2 ** bits - 1)


# Random requests.

# So many sequences are made under one header before the next is.
UNDER_ONE_HEADER = 6


def random_requests(rng, count):
    for i in range(count):
        if i % UNDER_ONE_HEADER == 0:
            payload, h = make_scan_header(rng)
        texts = make_sequence(rng, h, rng.choice((1, 2, 2, 3, 3, 4, 5)))
        frames = [followed(rng, text) for text in texts]
        yield request('scan', *spoiled(rng, payload, texts, frames))


def spoiled(rng, payload, texts, frames):
    """More than half as they are; else a frame is cut, damaged or of any bytes, or the sequence header is damaged."""
    draw = rng.random()
    place = rng.randrange(len(frames))
    if draw < 0.2:
        frames[place] = bytes_of(texts[place])[:rng.randrange(len(texts[place]) // 8 + 1)]
    elif draw < 0.35:
        frames[place] = flipped(frames[place], rng.randrange(8 * len(frames[place])))
    elif draw < 0.4:
        frames[place] = damaged(rng, frames[place])
    elif draw < 0.42:
        frames[place] = rng.randbytes(rng.randrange(40))
    elif draw < 0.45:
        payload = damaged(rng, payload)
    return payload, *frames
