"""Whole frame headers made field by field: the model's own syntax, with each element chosen instead of read."""

from collections.abc import Iterator

from model.header import INTER, INTRA_ONLY, KEY, SWITCH, header_of
from model.uheader.frame import EMPTY, State, stored, uncompressed_header
from model.uheader.quantizer import DELTAS
from model.words import Refused

from .header_bits import bytes_of, closed, extreme, make_header

# How likely a flag is 1; flags that are not here are 1 every other time.
CHANCES = dict(
    show_existing_frame=0.02, show_frame=0.7, error_resilient_mode=0.35, disable_cdf_update=0.4, frame_size_override_flag=0.4,
    frame_refs_short_signaling=0.04, render_and_frame_size_different=0.2, uniform_tile_spacing_flag=0.6, using_qmatrix=0.2,
    segmentation_enabled=0.2, segmentation_update_data=0.6, delta_q_present=0.4, loop_filter_delta_enabled=0.4,
    update_ref_delta=0.3, reference_select=0.75, is_global=0.2, subexp_more_bits=0.65, buffer_removal_time_present_flag=0.6,
)
CHANCES.update({f'found_ref {i}': 0.25 for i in range(7)})
CHANCES.update({f'feature_enabled {j}': 0.15 for j in range(8)})
CHANCES.update({f'delta_coded {delta}': 0.25 for delta in DELTAS})

# Sorts of frames: for an element its value, or values of which one is drawn; None and ONES stand for any and for the largest.
ONES = 'ones'
ANY = dict(frame_type=(KEY, INTER, INTER, INTER, INTER, INTRA_ONLY, SWITCH), base_q_idx=(0, 0, None),
           primary_ref_frame=(7, None, None))
SHOWN_KEY = dict(ANY, show_existing_frame=0, frame_type=KEY, show_frame=1)
# Deltas that are 0, and 64, which is 0 by the Rust and -64 by AV1.
NO_DELTAS = {f'delta_q {delta}': (0, 0, 64) for delta in DELTAS}
LOSSLESS = dict(ANY, base_q_idx=0, segmentation_enabled=0, **NO_DELTAS)
# Every segment has a feature that takes the quantizer to 0 by the Rust, by AV1, by both or by none.
SEGMENTS = {
    **ANY, **NO_DELTAS, 'segmentation_enabled': 1, 'segmentation_update_data': (1, 1, 0), 'feature_enabled 0': 1,
    'feature_value 0': (256, 257, 383, 510, 511), 'base_q_idx': (0, 1, 2, 127, 255)}
NEAR_HINTS = dict(ANY, frame_type=INTER, order_hint=(0, 1, 2, 3, 126, 127, 128, 129, 255), reference_select=1,
                  frame_refs_short_signaling=0)
FOUND = dict(ANY, show_existing_frame=0, frame_type=INTER, error_resilient_mode=0, frame_size_override_flag=1,
             frame_refs_short_signaling=0)
EXPLICIT = dict(ANY, uniform_tile_spacing_flag=0)
SMALL_TILES = dict(EXPLICIT, width_in_sbs_minus_1=(0, 0, 0, 1), height_in_sbs_minus_1=(0, 0, 0, 1))
LARGE_TILES = dict(EXPLICIT, width_in_sbs_minus_1=ONES, height_in_sbs_minus_1=ONES)
SORTS = [ANY] * 8 + [LOSSLESS, NEAR_HINTS, FOUND] * 2 + [SEGMENTS, EXPLICIT, SMALL_TILES, LARGE_TILES]


class Choices:
    """Stands in for a payload: each element is chosen, by the sort of frame or by chance, and its bits are kept."""

    def __init__(self, rng, wanted):
        self.rng = rng
        self.wanted = wanted
        self.texts = []
        # Each element's name, and the position behind it.
        self.ends = []
        self.size = 0

    def f(self, name, n):
        # What is wanted of a longer field has its last bits.
        value = self.choice(name, n) % 2 ** n
        if n:
            self.texts.append(f'{value:0{n}b}')
            self.size += n
            self.ends.append((name, self.size))
        return value

    def choice(self, name, n):
        value = self.wanted.get(name)
        if isinstance(value, tuple):
            value = self.rng.choice(value)
        elif isinstance(value, Iterator):
            value = next(value)
        if value == ONES:
            return 2 ** n - 1
        if value is not None:
            return value
        if n == 1:
            return int(self.rng.random() < CHANCES.get(name, 0.5))
        return extreme(self.rng, n)

    def fork(self, name, taken):
        return taken

    def position(self):
        return self.size

    def text(self):
        return ''.join(self.texts)


def make_scan_frame(rng, h, slots, wanted, av1=False):
    """The choices of a frame header, up to where it is refused if it is, and the slots behind it."""
    s = State(Choices(rng, wanted), h, slots, av1)
    try:
        uncompressed_header(s)
        slots = stored(s)
    except Refused:
        pass
    return s.code, slots


def make_sequence(rng, h, count, sorts=SORTS):
    """The bits of so many frame headers; most often the first is a shown key."""
    texts, slots = [], EMPTY
    for i in range(count):
        wanted = SHOWN_KEY if i == 0 and rng.random() < 0.7 else rng.choice(sorts)
        choices, slots = make_scan_frame(rng, h, slots, wanted)
        texts.append(choices.text())
    return texts


def cuts(choices):
    """For each number of bytes that is too few: the name of the element in which they run out, and the bytes."""
    whole = bytes_of(choices.text())
    ends = iter(choices.ends)
    name, end = '', 0
    for length in range(len(whole)):
        while end <= 8 * length:
            name, end = next(ends)
        yield name, whole[:length]


def followed(rng, text):
    """The bits as a payload, with what may follow a header: zeros to the byte, a one and zeros, or anything."""
    draw = rng.randrange(4)
    if draw == 0:
        return bytes_of(text)
    if draw == 1:
        return closed(text)
    text += f'{rng.getrandbits(7):07b}'[:-len(text) % 8]
    return bytes_of(text) + rng.randbytes(rng.randrange(3))


# Sequence headers.

# What a scan refuses, in its order.
SCANNED = dict(reduced_still_picture_header=0, film_grain_params_present=0, frame_id_numbers_present=0)
# Headers that a reader takes which refuses what no conforming stream has.
CONFORMING = dict(SCANNED, still_picture=0, num_units_in_display_tick=1, time_scale=25, ticks_zeros=0,
                  operating_points_cnt_minus_1=3, color_description_present=0, chroma_sample_position=0)


def make_scan_header(rng, **pinned):
    """The payload of a sequence header under which frames can be scanned, and its fields."""
    wanted = dict(SCANNED, seq_profile=rng.choice((0, 0, 1, 2)), ticks_zeros=rng.randrange(3))
    wanted.update(operating_points_cnt_minus_1=rng.choice((0, 0, 1, 4)), mono_chrome=int(rng.random() < 0.2))
    wanted.update(enable_order_hint=int(rng.random() < 0.75), timing_info_present=int(rng.random() < 0.3))
    wanted.update(size_fields(rng, 'width'), **size_fields(rng, 'height'))
    text, _ = make_header(rng, **{**wanted, **pinned})
    payload = closed(text)
    return payload, header_of(payload)


def size_fields(rng, side):
    """Sizes of up to a few superblocks, most of them; now and then up to the largest."""
    bits = rng.choice((1, 4, 6, 7, 8, 8, 9, 9, 10, 11, 12, 13, 14, 15, 16))
    return {f'frame_{side}_bits_minus_1': bits - 1, f'max_frame_{side}_minus_1': extreme(rng, bits)}
