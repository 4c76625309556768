"""Sequence headers read, judged, emitted and timed, and frame headers read."""

import itertools

from model.obu import FRAME_TYPES, SEQUENCE_HEADER, obus_of

from .base import PICKED, corpus_streams, damaged, in_every_room, layer, request
from .header_bits import SRGB, bytes_of, closed, extreme, make_frame, make_header

# The header of document 01's cases, the same timed 25/1, and a conforming monochrome one.
PLAIN = '000000019ff8000010'
TIMED = '04000000040000006700000033ff000002'
MONOCHROME = '000000019ff8000880'
RATES = (0, 1, 2, 24, 25, 30, 1001, 30000, 2 ** 31, 2 ** 32 - 1)

SMALL_HEADER = [
    *[f'{name} {payload}' for name in ('seq', 'support', 'emit')
      for payload in (PLAIN, TIMED, MONOCHROME, PLAIN[:-2], PLAIN + 'ff', '-', '00', '08', '58', '60', 'f8', '1800')],
    f'timed {PLAIN} 25 1', f'timed {PLAIN} 0 0', f'timed {PLAIN} 4294967295 4294967295', f'timed {TIMED} 30000 1001',
    f'timed {PLAIN[:-2]} 25 1', 'timed - 25 1', 'timed 60 25 1', f'timed {MONOCHROME} 25 1',
    *[f'frame {PLAIN} {payload}'
      for payload in ('10', '3810', '-', '80', 'b8', 'f0', 'ff', '00', '3800', '38', '7000')],
    f'frame {TIMED} 10', f'frame {TIMED} 3810', 'frame - 10', 'frame 60 10', f'frame {PLAIN[:-2]} 10',
    'frame 1800000000 -',
]

BAD_HEADER = [
    'seq', 'seq 0', 'seq AA', f'seq {PLAIN} ', f'seq {PLAIN} {PLAIN}', 'support', 'support x', f'support {PLAIN} 1',
    'emit', 'emit 0', f'emit {PLAIN} -', 'timed', f'timed {PLAIN}', f'timed {PLAIN} 25', f'timed {PLAIN} 25 1 1',
    f'timed {PLAIN} 4294967296 1', f'timed {PLAIN} 25 4294967296', f'timed {PLAIN} 18446744073709551616 1',
    f'timed {PLAIN} -1 1', f'timed {PLAIN} 25 -', 'timed 0 25 1', 'timed 60 4294967296 1', 'frame', f'frame {PLAIN}',
    f'frame {PLAIN} 10 10', 'frame 0 10', f'frame {PLAIN} 0', f'frame {PLAIN} AA', f'room 1 1 emit {PLAIN}',
    f'room a 1 1 emit {PLAIN}',
]

# Every field that steers or has a width, with all its values, and what must hold for it to be there.
PLAIN_KIND = dict(reduced_still_picture_header=0)
TIMING = dict(PLAIN_KIND, timing_info_present=1)
EQUAL = dict(TIMING, equal_picture_interval=1)
MODEL = dict(TIMING, decoder_model_info_present=1)
POINT_MODEL = dict(MODEL, decoder_model_present=1)
DELAYS = dict(PLAIN_KIND, initial_display_delay_present=1)
IDS = dict(PLAIN_KIND, frame_id_numbers_present=1)
HINTS = dict(PLAIN_KIND, enable_order_hint=1)
FORCED = dict(PLAIN_KIND, seq_choose_screen_content_tools=0)
TWELVE = dict(seq_profile=2, high_bitdepth=1, twelve_bit=1, mono_chrome=0, color_description_present=0)
BRANCHES = [
    ('seq_profile', 8, {}), ('still_picture', 2, {}), ('reduced_still_picture_header', 2, {}),
    ('timing_info_present', 2, PLAIN_KIND), ('equal_picture_interval', 2, TIMING), ('ticks_zeros', 36, EQUAL),
    ('decoder_model_info_present', 2, TIMING), ('buffer_delay_length_minus_1', 32, POINT_MODEL),
    ('buffer_removal_time_length_minus_1', 32, POINT_MODEL), ('frame_presentation_time_length_minus_1', 32, MODEL),
    ('initial_display_delay_present', 2, PLAIN_KIND), ('operating_points_cnt_minus_1', 32, PLAIN_KIND),
    ('seq_level_idx', 32, {}), ('seq_tier', 2, dict(PLAIN_KIND, seq_level_idx=8)), ('decoder_model_present', 2, MODEL),
    ('low_delay_mode', 2, POINT_MODEL), ('point_display_delay_present', 2, DELAYS),
    ('initial_display_delay_minus_1', 16, dict(DELAYS, point_display_delay_present=1)),
    ('frame_width_bits_minus_1', 16, {}), ('frame_height_bits_minus_1', 16, {}),
    ('frame_id_numbers_present', 2, PLAIN_KIND), ('delta_frame_id_length_minus_2', 16, IDS),
    ('additional_frame_id_length_minus_1', 8, IDS),
    ('enable_order_hint', 2, PLAIN_KIND), ('order_hint_bits_minus_1', 8, HINTS),
    ('seq_choose_screen_content_tools', 2, PLAIN_KIND), ('seq_force_screen_content_tools', 2, FORCED),
    ('seq_choose_integer_mv', 2, dict(FORCED, seq_force_screen_content_tools=1)),
    ('seq_force_integer_mv', 2, dict(FORCED, seq_force_screen_content_tools=1, seq_choose_integer_mv=0)),
    ('high_bitdepth', 2, {}), ('twelve_bit', 2, dict(seq_profile=2, high_bitdepth=1)), ('mono_chrome', 2, {}),
    ('color_description_present', 2, {}), ('subsample_x', 2, TWELVE), ('subsample_y', 2, dict(TWELVE, subsample_x=1)),
    ('chroma_sample_position', 4, dict(seq_profile=0, mono_chrome=0)), ('separate_uv_delta_q', 2, {}),
    ('film_grain_params_present', 2, {}),
]

# Headers under which frames can be read.
READABLE = dict(PLAIN_KIND, seq_profile=0, frame_id_numbers_present=0)


def picked_header():
    real = [request(name, payload) for payload in dict.fromkeys(real_headers()) for name in ('seq', 'support', 'emit')]
    real += [request('timed', payload, 30, 1) for payload in dict.fromkeys(real_headers())]
    real += [request('frame', header, frame[:40]) for header, frame in real_frames()]
    return SMALL_HEADER + list(dict.fromkeys(real))


PICKED['header'] = picked_header


@layer
def header(rng, count, exhaustive):
    real = real_headers()
    frames = real_frames()
    yield from picked_header()
    yield from BAD_HEADER
    yield from branch_requests(rng)
    yield from uvlc_requests(rng)
    yield from colour_requests(rng)
    yield from tool_requests(rng)
    yield from size_requests(rng)
    yield from point_requests(rng)
    yield from refused_requests(rng)
    yield from cut_requests(rng)
    yield from room_requests(rng)
    yield from frame_requests(rng)
    yield from refresh_requests(rng)
    yield from removal_requests(rng)
    yield from existing_requests(rng)
    yield from short_frames(rng, exhaustive)
    yield from real_requests(rng, real, frames)
    for _ in range(count):
        yield random_request(rng, real, frames)


def rate(rng):
    return rng.choice((rng.choice(RATES), extreme(rng, 32)))


def all_uses(rng, payload):
    yield request('seq', payload)
    yield request('support', payload)
    yield request('emit', payload)
    yield request('timed', payload, rate(rng), rate(rng))


# Sequence headers.

def branch_requests(rng):
    for name, values, needed in BRANCHES:
        for value in range(values):
            for _ in range(6):
                text, _ = make_header(rng, **{**needed, name: value})
                yield from all_uses(rng, closed(text))


def uvlc_requests(rng):
    """Every count of leading zeros, cut at every byte behind them."""
    for zeros in range(41):
        for suffix in {0, 2 ** zeros - 1, extreme(rng, zeros)}:
            text, _ = make_header(rng, **EQUAL, seq_profile=0, ticks_zeros=zeros, uvlc_suffix=suffix)
            payload = closed(text)
            yield from all_uses(rng, payload)
            for length in range(8, min(len(payload), 22)):
                yield request('seq', payload[:length])


def colour_requests(rng):
    colours = [None, SRGB, (2, 13, 0), (1, 14, 0), (1, 13, 1), (0, 13, 0), (2, 2, 2)]
    bits = ('high_bitdepth', 'twelve_bit', 'mono_chrome', 'color_range', 'subsample_x', 'subsample_y',
            'separate_uv_delta_q')
    for profile, colour in itertools.product(range(4), colours):
        for values in itertools.product((0, 1), repeat=len(bits)):
            pinned = dict(zip(bits, values), seq_profile=profile, colour=colour,
                          color_description_present=int(colour is not None))
            text, _ = make_header(rng, **pinned)
            yield request(rng.choice(('seq', 'seq', 'emit')), closed(text))


def tool_requests(rng):
    """Order hints of every width, screen content tools and integer motion vectors in every way."""
    choices = ((1, 0, 0, 0), (1, 0, 1, 0), (1, 0, 0, 1), (0, 0, 0, 0), (0, 1, 1, 0), (0, 1, 0, 0), (0, 1, 0, 1))
    names = ('seq_choose_screen_content_tools', 'seq_force_screen_content_tools', 'seq_choose_integer_mv',
             'seq_force_integer_mv')
    for hints, width, choice in itertools.product((0, 1), range(8), choices):
        pinned = dict(zip(names, choice), **PLAIN_KIND, enable_order_hint=hints, order_hint_bits_minus_1=width)
        text, _ = make_header(rng, **pinned)
        yield from all_uses(rng, closed(text))


def size_requests(rng):
    for width, height in itertools.product(range(16), repeat=2):
        for largest in (0, 1):
            pinned = dict(frame_width_bits_minus_1=width, frame_height_bits_minus_1=height,
                          max_frame_width_minus_1=largest * (2 ** (width + 1) - 1),
                          max_frame_height_minus_1=largest * (2 ** (height + 1) - 1))
            text, _ = make_header(rng, **pinned)
            yield request(rng.choice(('seq', 'emit')), closed(text))


def point_requests(rng):
    """Every number of operating points and every length of a delay, with and without models."""
    for count, length in itertools.product(range(0, 32), (0, 1, 7, 8, 30, 31)):
        text, _ = make_header(rng, **MODEL, operating_points_cnt_minus_1=count, buffer_delay_length_minus_1=length)
        yield from all_uses(rng, closed(text))
    for model, delay in itertools.product((0, 1), repeat=2):
        pinned = dict(MODEL, operating_points_cnt_minus_1=31, buffer_delay_length_minus_1=31, seq_level_idx=31,
                      decoder_model_present=model, initial_display_delay_present=delay, point_display_delay_present=1)
        text, _ = make_header(rng, **pinned)
        yield from all_uses(rng, closed(text))


def refused_requests(rng):
    """What is not supported, in every combination, so that the first is told."""
    names = ('reduced_still_picture_header', 'frame_id_numbers_present', 'equal_picture_interval',
             'decoder_model_info_present', 'timing_info_present', 'film_grain_params_present')
    for values in itertools.product((0, 1), repeat=len(names)):
        for _ in range(4):
            text, facts = make_header(rng, **dict(zip(names, values)), seq_profile=0)
            yield from all_uses(rng, closed(text))
            frame = bytes_of(make_frame(rng, facts))
            yield request('frame', closed(text), frame)
            yield request('frame', closed(text), frame[:-1])
            yield request('frame', bytes_of(text)[:-1], frame)


def cut_requests(rng):
    """Headers cut at every byte, with no trailing bits, and with bytes behind them."""
    for _ in range(120):
        text, _ = make_header(rng, operating_points_cnt_minus_1=rng.choice((0, 0, 1, 2, 31)))
        whole = bytes_of(text)
        for length in range(len(whole)):
            yield request('seq', whole[:length])
        yield from all_uses(rng, whole[:-1])
        yield from all_uses(rng, whole)
        yield from all_uses(rng, closed(text) + rng.randbytes(rng.randrange(1, 4)))


def room_requests(rng):
    for i in range(150):
        text, _ = make_header(rng)
        yield from in_every_room(request('emit', closed(text)))
        yield from in_every_room(request('timed', closed(text), rate(rng), rate(rng)))
        if i < 10:
            yield request('room', 0, 0, 0, 'seq', closed(text))
            yield request('room', 0, 0, 0, 'support', closed(text))


# Frames.

def frame_under(rng, text, facts, **pinned):
    """A frame's request, whole; then cut at every byte near its end."""
    frame = bytes_of(make_frame(rng, facts, **pinned))
    for length in {len(frame), len(frame) - 1, len(frame) - 2, len(frame) // 2, 0}:
        if length >= 0:
            yield request('frame', closed(text), frame[:length])


def frame_requests(rng):
    for kind, shown, hints, choice in itertools.product(range(4), (0, 1), range(9), range(3)):
        pinned = dict(READABLE, enable_order_hint=int(hints > 0), order_hint_bits_minus_1=max(hints - 1, 0),
                      seq_choose_screen_content_tools=int(choice == 2), seq_force_screen_content_tools=choice % 2)
        for _ in range(5):
            text, facts = make_header(rng, **pinned)
            yield from frame_under(rng, text, facts, show_existing_frame=0, frame_type=kind, show_frame=shown)


def refresh_requests(rng):
    for flags, kind, shown in itertools.product(range(256), range(4), (0, 1)):
        text, facts = make_header(rng, **READABLE)
        frame = make_frame(rng, facts, show_existing_frame=0, frame_type=kind, show_frame=shown,
                           refresh_frame_flags=flags)
        yield request('frame', closed(text), bytes_of(frame) + rng.randbytes(rng.randrange(2)))


def removal_requests(rng):
    """Removal times of every length, cut at every byte; for operating points of any idc."""
    for length, points in itertools.product(range(32), (0, 1, 5, 31)):
        pinned = dict(equal_picture_interval=1, ticks_zeros=0, operating_points_cnt_minus_1=points,
                      buffer_removal_time_length_minus_1=length)
        text, facts = make_header(rng, **{**READABLE, **MODEL, **pinned})
        frame = bytes_of(make_frame(rng, facts, show_existing_frame=0, buffer_removal_time_present=1))
        for cut in range(len(frame) + 1):
            yield request('frame', closed(text), frame[:cut])
        yield from frame_under(rng, text, facts, show_existing_frame=0, buffer_removal_time_present=0)


def existing_requests(rng):
    """Every slot shown again, under headers with and without a model of equal or unequal intervals."""
    for slot, equal, model in itertools.product(range(8), (0, 1), (0, 1)):
        pinned = dict(timing_info_present=1, equal_picture_interval=equal, ticks_zeros=0,
                      decoder_model_info_present=model)
        text, facts = make_header(rng, **READABLE, **pinned)
        yield from frame_under(rng, text, facts, show_existing_frame=1, slot=slot)
        yield from frame_under(rng, text, facts, show_existing_frame=0)


def short_frames(rng, exhaustive):
    """Every frame of one byte under many headers, and of two bytes under some."""
    for _ in range(20):
        text, _ = make_header(rng, **READABLE)
        for value in range(256):
            yield request('frame', closed(text), bytes([value]))
    for _ in range(5 if exhaustive else 0):
        text, _ = make_header(rng, **READABLE)
        for value in range(65536):
            yield request('frame', closed(text), value.to_bytes(2, 'big'))


# Real encoders' headers and frames.

def real_headers():
    return [header for header, _ in real_frames()]


def real_frames():
    """Each real frame's payload behind its sequence header's."""
    found = []
    for stream in corpus_streams():
        last = None
        for kind, _, payload in obus_of(stream):
            if kind == SEQUENCE_HEADER:
                last = payload
            elif kind in FRAME_TYPES and last is not None:
                found.append((last, payload))
    return found


def real_requests(rng, headers, frames):
    for payload in dict.fromkeys(headers):
        yield from all_uses(rng, payload)
        yield request('seq', payload + b'\x00')
        for i in range(8 * len(payload)):
            yield from all_uses(rng, flipped(payload, i))
        for length in range(len(payload)):
            yield request('seq', payload[:length])
    for header, frame in dict.fromkeys(frames):
        yield request('frame', header, frame)
        for length in range(10):
            yield request('frame', header, frame[:length])
        for i in range(48):
            yield request('frame', header, flipped(frame[:30], i))
        for other in dict.fromkeys(headers):
            yield request('frame', other, frame[:30])


def flipped(data, i):
    out = bytearray(data)
    out[i // 8] ^= 128 >> i % 8
    return bytes(out)


# Random requests: about half of them read a header, a quarter a frame, an eighth each emits and times.

def random_request(rng, headers, frames):
    draw = rng.randrange(16)
    if draw < 4:
        return random_frame_request(rng, headers, frames)
    payload = random_payload(rng, headers)
    if draw < 10:
        return request('seq', payload)
    if draw < 12:
        return request('support', payload)
    if draw < 14:
        return request('emit', payload)
    return request('timed', payload, rate(rng), rate(rng))


def random_payload(rng, headers):
    draw = rng.random()
    if draw < 0.03:
        return rng.randbytes(rng.randrange(24))
    if draw < 0.06:
        return damaged(rng, damaged(rng, rng.choice(headers)))
    text, _ = make_header(rng)
    return spoiled(rng, text, 0.7)


def spoiled(rng, text, share_good):
    """The bits as bytes, most of them good, others cut, damaged or followed by something."""
    payload = closed(text)
    draw = rng.random()
    if draw < share_good:
        return payload
    if draw < share_good + 0.08:
        return bytes_of(text)[:rng.randrange(len(payload))]
    if draw < share_good + 0.2:
        return damaged(rng, payload)
    return bytes_of(text) + rng.randbytes(rng.randrange(3))


def random_frame_request(rng, headers, frames):
    draw = rng.random()
    if draw < 0.05:
        return request('frame', rng.choice(headers), rng.randbytes(rng.randrange(12)))
    if draw < 0.1:
        header, frame = rng.choice(frames)
        return request('frame', header, damaged(rng, frame[:rng.randrange(1, 30)]))
    pinned = READABLE if rng.random() < 0.8 else {}
    text, facts = make_header(rng, **pinned)
    frame = spoiled(rng, make_frame(rng, facts), 0.5)
    return request('frame', spoiled(rng, text, 0.8), frame)
