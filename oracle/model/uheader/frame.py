"""The whole frame header, AV1 5.9.2, and the slots that it leaves to the next frame.

Where the Rust departs from AV1 the scan follows it. `av1` in a State asks for AV1's own rule instead: signed numbers in the
test for lossless, segmentation features kept from the primary reference, removal times by layer. A State's code hands out
the elements: of a payload (Elements), or freely chosen (the generators' Choices), so that the syntax stands here once.
"""

from collections import namedtuple

from ..header import ALL_SLOTS, FILM_GRAIN, FRAME_IDS, INTRA_ONLY, KEY, REDUCED, SELECT, SWITCH, is_unequal_model
from ..words import Refused
from .filters import cdef_params, loop_filter_params, lr_params
from .quantizer import NO_PRIMARY, delta_lf_params, delta_q_params, lossless, quantization_params, segmentation_params
from .references import REFERENCES, global_motion_params, skip_mode_params
from .sizes import frame_size, frame_size_with_refs, render_size
from .tiles import tile_info

SHORT_SIGNALLING, SHOWS_EXISTING = 41, 42
SLOTS = 8

Slot = namedtuple('Slot', 'order_hint upscaled_width frame_width frame_height render_width render_height is_key features',
                  defaults=[0, 0, 0, 0, 0, 0, 0, ()])
EMPTY = (Slot(),) * SLOTS


class State:
    """The header that is being read, the sequence header and the slots before it."""

    def __init__(self, code, h, slots, av1=False):
        self.code, self.f, self.fork = code, code.f, code.fork
        self.h, self.slots, self.av1 = h, slots, av1
        self.num_planes = 1 if h['mono_chrome'] else 3
        self.allow_high_precision_mv = self.allow_intrabc = self.delta_q_present = self.reference_select = 0
        self.primary_ref_frame = NO_PRIMARY
        self.frame_type = self.show_frame = None


def uncompressed_header(s):
    check_header(s.h)
    if s.f('show_existing_frame', 1):
        raise Refused(SHOWS_EXISTING)
    kind_of_frame(s)
    modes(s)
    s.order_hint = s.f('order_hint', s.h['order_hint_bits'])
    if not (s.is_intra or s.error_resilient_mode):
        s.primary_ref_frame = s.f('primary_ref_frame', 3)
    s.insert = s.code.position()
    buffer_removal_times(s)
    s.refresh_frame_flags = ALL_SLOTS if s.fills_all else s.f('refresh_frame_flags', 8)
    ref_order_hints(s)
    if s.is_intra:
        intra_frame(s)
    else:
        inter_frame(s)
    if not s.disable_cdf_update:
        s.f('disable_frame_end_update_cdf', 1)
    tile_info(s)
    quantization_params(s)
    segmentation_params(s)
    delta_q_params(s)
    delta_lf_params(s)
    lossless(s)
    loop_filter_params(s)
    cdef_params(s)
    lr_params(s)
    if not s.coded_lossless:
        s.f('tx_mode_select', 1)
    if not s.is_intra:
        s.reference_select = s.f('reference_select', 1)
    skip_mode_params(s)
    if s.fork('warped motion can be', not (s.is_intra or s.error_resilient_mode) and s.h['enable_warped_motion']):
        s.f('allow_warped_motion', 1)
    s.f('reduced_tx_set', 1)
    if not s.is_intra:
        global_motion_params(s)


def check_header(h):
    """In another order than assembly's."""
    if h['reduced_still_picture_header']:
        raise Refused(REDUCED)
    if h['film_grain_params_present']:
        raise Refused(FILM_GRAIN)
    if h['frame_id_numbers_present']:
        raise Refused(FRAME_IDS)


def kind_of_frame(s):
    s.frame_type = s.f('frame_type', 2)
    s.is_intra = s.frame_type in (KEY, INTRA_ONLY)
    s.show_frame = s.f('show_frame', 1)
    if s.fork('presentation time', s.show_frame and is_unequal_model(s.h)):
        s.f('frame_presentation_time', s.h['frame_presentation_time_length_minus_1'] + 1)
    s.showable_frame = int(s.frame_type != KEY) if s.show_frame else s.f('showable_frame', 1)
    s.fills_all = s.frame_type == SWITCH or (s.frame_type == KEY and s.show_frame)
    s.error_resilient_mode = 1 if s.fills_all else s.f('error_resilient_mode', 1)
    s.fork(f'type {s.frame_type}, shown {s.show_frame}, error resilient {s.error_resilient_mode}', True)


def modes(s):
    s.disable_cdf_update = s.f('disable_cdf_update', 1)
    s.allow_screen_content_tools = s.h['seq_force_screen_content_tools']
    if s.allow_screen_content_tools == SELECT:
        s.allow_screen_content_tools = s.f('allow_screen_content_tools', 1)
    s.force_integer_mv = 0
    if s.allow_screen_content_tools:
        s.force_integer_mv = s.h['seq_force_integer_mv']
        if s.force_integer_mv == SELECT:
            s.force_integer_mv = s.f('force_integer_mv', 1)
    s.frame_size_override_flag = 1 if s.frame_type == SWITCH else s.f('frame_size_override_flag', 1)


def buffer_removal_times(s):
    if not s.h['decoder_model_info_present'] or not s.f('buffer_removal_time_present_flag', 1):
        return
    for point in s.h['points']:
        if s.fork('removal time', point['decoder_model_present'] and (not s.av1 or in_base_layers(point['idc']))):
            s.f('buffer_removal_time', s.h['buffer_removal_time_length_minus_1'] + 1)


def in_base_layers(idc):
    """AV1's rule for an OBU without an extension; the Rust looks at no idc."""
    return idc == 0 or (idc & 1 and idc >> 8 & 1)


def ref_order_hints(s):
    if s.fork('reference order hints', (not s.is_intra or s.refresh_frame_flags != ALL_SLOTS)
              and s.error_resilient_mode and s.h['enable_order_hint']):
        for _ in range(SLOTS):
            s.f('ref_order_hint', s.h['order_hint_bits'])


def intra_frame(s):
    frame_size(s)
    render_size(s)
    if s.fork('intrabc can be', s.allow_screen_content_tools and s.upscaled_width == s.frame_width):
        s.allow_intrabc = s.f('allow_intrabc', 1)


def inter_frame(s):
    if s.h['enable_order_hint'] and s.f('frame_refs_short_signaling', 1):
        s.f('last_frame_idx', 3)
        s.f('gold_frame_idx', 3)
        raise Refused(SHORT_SIGNALLING)
    s.references = [s.slots[s.f('ref_frame_idx', 3)] for _ in range(REFERENCES)]
    if s.fork('size with references', s.frame_size_override_flag and not s.error_resilient_mode):
        frame_size_with_refs(s)
    else:
        frame_size(s)
        render_size(s)
    if not s.force_integer_mv:
        s.allow_high_precision_mv = s.f('allow_high_precision_mv', 1)
    if not s.f('is_filter_switchable', 1):
        s.f('interpolation_filter', 2)
    s.f('is_motion_mode_switchable', 1)
    if s.fork('motion vectors of references can be', not s.error_resilient_mode and s.h['enable_ref_frame_mvs']):
        s.f('use_ref_frame_mvs', 1)


def stored(s):
    """The slots behind the frame, 7.20."""
    own = Slot(s.order_hint, s.upscaled_width, s.frame_width, s.frame_height, s.render_width, s.render_height,
               int(s.frame_type == KEY), s.features)
    return tuple(own if s.refresh_frame_flags >> i & 1 else slot for i, slot in enumerate(s.slots))
