"""The sequence header (AV1 5.5) and the frame header up to the refresh flags (5.9.2).

The sequence header's syntax stands here once, in the functions named walk_..: a Reading fills the
fields from a payload, a Writing makes the payload of the fields. Where the Rust departs from AV1
the base follows it, and so does this.
"""

from collections import namedtuple

from .bitio import BITS_RUN_OUT, UVLC_TOO_LONG
from .words import Refused, hexadecimal

BAD_PROFILE = 15
REDUCED, FRAME_IDS, UNEQUAL_MODEL, FILM_GRAIN = 17, 18, 19, 20
SELECT = 2
UNSPECIFIED = 2
NO_RANGE = 2
BT709, SRGB, IDENTITY = 1, 13, 0

# In the order of the answer to `seq`; the two sizes are kept less one, as they are coded.
FIELDS = '''
seq_profile still_picture reduced_still_picture_header timing_info_present num_units_in_display_tick
time_scale equal_picture_interval num_ticks_per_picture_minus_1 decoder_model_info_present
buffer_delay_length_minus_1 num_units_in_decoding_tick buffer_removal_time_length_minus_1
frame_presentation_time_length_minus_1 initial_display_delay_present frame_width_bits_minus_1
frame_height_bits_minus_1 max_frame_width_minus_1 max_frame_height_minus_1 frame_id_numbers_present
delta_frame_id_length_minus_2 additional_frame_id_length_minus_1 use_128x128_superblock
enable_filter_intra enable_intra_edge_filter enable_interintra_compound enable_masked_compound
enable_warped_motion enable_dual_filter enable_order_hint enable_jnt_comp enable_ref_frame_mvs
seq_choose_screen_content_tools seq_force_screen_content_tools seq_choose_integer_mv
seq_force_integer_mv order_hint_bits enable_superres enable_cdef enable_restoration high_bitdepth
twelve_bit mono_chrome color_description_present color_primaries transfer_characteristics
matrix_coefficients color_range subsample_x subsample_y chroma_sample_position separate_uv_delta_q
film_grain_params_present
'''.split()

POINT_FIELDS = '''
idc seq_level_idx seq_tier decoder_model_present decoder_buffer_delay encoder_buffer_delay
low_delay_mode initial_display_delay_present initial_display_delay_minus_1
'''.split()

# What a field is where its bits are absent; all others are 0.
ABSENT = dict(
    seq_force_screen_content_tools=SELECT, seq_force_integer_mv=SELECT, color_primaries=UNSPECIFIED,
    transfer_characteristics=UNSPECIFIED, matrix_coefficients=UNSPECIFIED, color_range=NO_RANGE)


class Reading:
    """Takes fields from the front of a payload."""

    def __init__(self, payload):
        self.bits = int.from_bytes(payload, 'big')
        self.left = 8 * len(payload)

    def number(self, n):
        if n > self.left:
            raise Refused(BITS_RUN_OUT)
        self.left -= n
        return (self.bits >> self.left) % (1 << n)

    def field(self, fields, name, n=1):
        fields[name] = self.number(n)

    def uvlc(self, fields, name):
        zeros = 0
        while self.number(1) == 0:
            zeros += 1
            if zeros == 32:
                raise Refused(UVLC_TOO_LONG)
        fields[name] = 2 ** zeros - 1 + self.number(zeros)


class Writing:
    """Puts fields one behind another."""

    def __init__(self):
        self.texts = []

    def field(self, fields, name, n=1):
        self.texts.append(f'{fields[name]:0{n}b}')

    def uvlc(self, fields, name):
        text = f'{fields[name] + 1:b}'
        self.texts.append('0' * (len(text) - 1) + text)

    def payload(self):
        """The bits with a one behind them, and zeros to the byte."""
        text = ''.join(self.texts) + '1'
        text += '0' * (-len(text) % 8)
        return int(text, 2).to_bytes(len(text) // 8, 'big')


def walk_header(code, h):
    code.field(h, 'seq_profile', 3)
    code.field(h, 'still_picture')
    code.field(h, 'reduced_still_picture_header')
    if h['seq_profile'] > 2:
        raise Refused(BAD_PROFILE)
    if h['reduced_still_picture_header']:
        code.field(h['points'][0], 'seq_level_idx', 5)
    else:
        walk_timing(code, h)
        walk_points(code, h)
    walk_sizes(code, h)
    walk_tools(code, h)
    walk_colour(code, h)
    code.field(h, 'film_grain_params_present')


def walk_timing(code, h):
    code.field(h, 'timing_info_present')
    if not h['timing_info_present']:
        return
    code.field(h, 'num_units_in_display_tick', 32)
    code.field(h, 'time_scale', 32)
    code.field(h, 'equal_picture_interval')
    if h['equal_picture_interval']:
        code.uvlc(h, 'num_ticks_per_picture_minus_1')
    code.field(h, 'decoder_model_info_present')
    if h['decoder_model_info_present']:
        code.field(h, 'buffer_delay_length_minus_1', 5)
        code.field(h, 'num_units_in_decoding_tick', 32)
        code.field(h, 'buffer_removal_time_length_minus_1', 5)
        code.field(h, 'frame_presentation_time_length_minus_1', 5)


def walk_points(code, h):
    code.field(h, 'initial_display_delay_present')
    code.field(h, 'operating_points_cnt_minus_1', 5)
    while len(h['points']) <= h['operating_points_cnt_minus_1']:
        h['points'].append(dict.fromkeys(POINT_FIELDS, 0))
    for point in h['points']:
        walk_point(code, h, point)


def walk_point(code, h, point):
    code.field(point, 'idc', 12)
    code.field(point, 'seq_level_idx', 5)
    if point['seq_level_idx'] > 7:
        code.field(point, 'seq_tier')
    if h['decoder_model_info_present']:
        code.field(point, 'decoder_model_present')
        if point['decoder_model_present']:
            length = h['buffer_delay_length_minus_1'] + 1
            code.field(point, 'decoder_buffer_delay', length)
            code.field(point, 'encoder_buffer_delay', length)
            code.field(point, 'low_delay_mode')
    if h['initial_display_delay_present']:
        code.field(point, 'initial_display_delay_present')
        if point['initial_display_delay_present']:
            code.field(point, 'initial_display_delay_minus_1', 4)


def walk_sizes(code, h):
    code.field(h, 'frame_width_bits_minus_1', 4)
    code.field(h, 'frame_height_bits_minus_1', 4)
    code.field(h, 'max_frame_width_minus_1', h['frame_width_bits_minus_1'] + 1)
    code.field(h, 'max_frame_height_minus_1', h['frame_height_bits_minus_1'] + 1)
    if not h['reduced_still_picture_header']:
        code.field(h, 'frame_id_numbers_present')
        if h['frame_id_numbers_present']:
            code.field(h, 'delta_frame_id_length_minus_2', 4)
            code.field(h, 'additional_frame_id_length_minus_1', 3)


def walk_tools(code, h):
    for name in ('use_128x128_superblock', 'enable_filter_intra', 'enable_intra_edge_filter'):
        code.field(h, name)
    if not h['reduced_still_picture_header']:
        walk_inter_tools(code, h)
    for name in ('enable_superres', 'enable_cdef', 'enable_restoration'):
        code.field(h, name)


def walk_inter_tools(code, h):
    for name in ('enable_interintra_compound', 'enable_masked_compound', 'enable_warped_motion',
                 'enable_dual_filter', 'enable_order_hint'):
        code.field(h, name)
    if h['enable_order_hint']:
        code.field(h, 'enable_jnt_comp')
        code.field(h, 'enable_ref_frame_mvs')
    code.field(h, 'seq_choose_screen_content_tools')
    if not h['seq_choose_screen_content_tools']:
        code.field(h, 'seq_force_screen_content_tools')
    if h['seq_force_screen_content_tools'] > 0:
        code.field(h, 'seq_choose_integer_mv')
        if not h['seq_choose_integer_mv']:
            code.field(h, 'seq_force_integer_mv')
    if h['enable_order_hint']:
        code.field(h, 'order_hint_bits_minus_1', 3)
        h['order_hint_bits'] = h['order_hint_bits_minus_1'] + 1


def walk_colour(code, h):
    code.field(h, 'high_bitdepth')
    if h['seq_profile'] == 2 and h['high_bitdepth']:
        code.field(h, 'twelve_bit')
    if h['seq_profile'] != 1:
        code.field(h, 'mono_chrome')
    code.field(h, 'color_description_present')
    if h['color_description_present']:
        for name in ('color_primaries', 'transfer_characteristics', 'matrix_coefficients'):
            code.field(h, name, 8)
    if h['mono_chrome']:
        code.field(h, 'color_range')
    elif not is_srgb(h):
        code.field(h, 'color_range')
        walk_subsampling(code, h)
    # AV1 has no such bit for monochrome; the Rust reads one there too.
    code.field(h, 'separate_uv_delta_q')


def is_srgb(h):
    colour = h['color_primaries'], h['transfer_characteristics'], h['matrix_coefficients']
    return colour == (BT709, SRGB, IDENTITY)


def walk_subsampling(code, h):
    if h['twelve_bit']:
        code.field(h, 'subsample_x')
        if h['subsample_x']:
            code.field(h, 'subsample_y')
    else:
        h['subsample_x'], h['subsample_y'] = [(1, 1), (0, 0), (1, 0)][h['seq_profile']]
    if h['subsample_x'] and h['subsample_y']:
        code.field(h, 'chroma_sample_position', 2)


def header_of(payload):
    """All fields, and the operating points under `points`; bytes behind are not looked at."""
    h = {**dict.fromkeys(FIELDS, 0), **ABSENT, 'points': [dict.fromkeys(POINT_FIELDS, 0)]}
    walk_header(Reading(payload), h)
    return h


def payload_of(h):
    code = Writing()
    walk_header(code, h)
    return code.payload()


def check_supported(h):
    if h['reduced_still_picture_header']:
        raise Refused(REDUCED)
    if h['frame_id_numbers_present']:
        raise Refused(FRAME_IDS)
    if is_unequal_model(h):
        raise Refused(UNEQUAL_MODEL)
    if h['film_grain_params_present']:
        raise Refused(FILM_GRAIN)


def is_unequal_model(h):
    return h['decoder_model_info_present'] and not h['equal_picture_interval']


def timed_header(h, fps, fps_den):
    """Timing that is there is overwritten; a decoder model stays."""
    if h['reduced_still_picture_header']:
        raise Refused(REDUCED)
    return {**h, 'timing_info_present': 1, 'time_scale': max(fps, 1),
            'num_units_in_display_tick': max(fps_den, 1), 'equal_picture_interval': 1,
            'num_ticks_per_picture_minus_1': 0}


# Frame headers. A frame that shows a slot again has `slot` alone.

KEY, INTER, INTRA_ONLY, SWITCH = range(4)
ALL_SLOTS = 255

Frame = namedtuple('Frame', 'slot kind shown showable flags hint', defaults=[None] * 6)


def frame_of(h, payload):
    if h['reduced_still_picture_header']:
        raise Refused(REDUCED)
    if h['frame_id_numbers_present']:
        raise Refused(FRAME_IDS)
    read = Reading(payload).number
    if read(1):
        slot = read(3)
        if is_unequal_model(h):
            raise Refused(UNEQUAL_MODEL)
        return Frame(slot=slot)
    kind, shown = read(2), read(1)
    if shown and is_unequal_model(h):
        raise Refused(UNEQUAL_MODEL)
    showable = int(kind != KEY) if shown else read(1)
    fills_all = kind == SWITCH or (kind == KEY and shown)
    resilient = fills_all or read(1)
    skip_tools(h, kind, read)
    hint = read(h['order_hint_bits'])
    if kind in (INTER, SWITCH) and not resilient:
        read(3)
    skip_removal_times(h, read)
    flags = ALL_SLOTS if fills_all else read(8)
    return Frame(None, kind, shown, showable, flags, hint)


def skip_tools(h, kind, read):
    """disable_cdf_update, the two screen content choices and frame_size_override."""
    read(1)
    screen_content = h['seq_force_screen_content_tools']
    if screen_content == SELECT:
        screen_content = read(1)
    if screen_content and h['seq_force_integer_mv'] == SELECT:
        read(1)
    if kind != SWITCH:
        read(1)


def skip_removal_times(h, read):
    """One for each operating point with a model, whatever its idc."""
    if h['decoder_model_info_present'] and read(1):
        for point in h['points']:
            if point['decoder_model_present']:
                read(h['buffer_removal_time_length_minus_1'] + 1)


# Operations.

def seq(payload):
    h = header_of(payload)
    values = [h[name] for name in FIELDS]
    values += [point[name] for point in h['points'] for name in POINT_FIELDS]
    return ','.join(map(str, values))


def support(payload):
    check_supported(header_of(payload))
    return ''


def emit(payload):
    return hexadecimal(payload_of(header_of(payload)))


def timed(payload, fps, fps_den):
    return hexadecimal(payload_of(timed_header(header_of(payload), fps, fps_den)))


def frame(header_payload, frame_payload):
    found = frame_of(header_of(header_payload), frame_payload)
    if found.slot is not None:
        return f'1 {found.slot}'
    return f'0 {found.kind} {found.shown} {found.showable} {found.flags} {found.hint}'
