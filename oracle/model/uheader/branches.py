"""Which branches the scan of a frame header has, and how often each was met.

A branch is a name and an outcome: a syntax element read as 0, read as something else, or cut, the bits having run out
there; a fork, which is a condition that no single element decides, taken or not. CASES has all that can be.
"""

from collections import Counter

ZERO, OTHER, CUT = '0', 'not 0', 'cut'
NO, YES = 'no', 'yes'
MET = Counter()

ELEMENTS = '''
show_existing_frame frame_type show_frame frame_presentation_time showable_frame error_resilient_mode disable_cdf_update
allow_screen_content_tools force_integer_mv frame_size_override_flag order_hint primary_ref_frame
buffer_removal_time_present_flag buffer_removal_time refresh_frame_flags ref_order_hint allow_intrabc
frame_refs_short_signaling last_frame_idx gold_frame_idx ref_frame_idx allow_high_precision_mv is_filter_switchable
interpolation_filter is_motion_mode_switchable use_ref_frame_mvs frame_width_minus_1 frame_height_minus_1 use_superres
coded_denom render_and_frame_size_different render_width_minus_1 render_height_minus_1 disable_frame_end_update_cdf
uniform_tile_spacing_flag increment_tile_cols_log2 increment_tile_rows_log2 width_in_sbs_minus_1 height_in_sbs_minus_1
context_update_tile_id tile_size_bytes_minus_1 base_q_idx diff_uv_delta using_qmatrix qm_y qm_u qm_v segmentation_enabled
segmentation_update_map segmentation_temporal_update segmentation_update_data delta_q_present delta_q_res delta_lf_present
delta_lf_res delta_lf_multi loop_filter_sharpness loop_filter_delta_enabled loop_filter_delta_update update_ref_delta
loop_filter_ref_deltas update_mode_delta loop_filter_mode_deltas cdef_damping_minus_3 cdef_bits cdef_y_pri_strength
cdef_y_sec_strength cdef_uv_pri_strength cdef_uv_sec_strength lr_unit_shift lr_unit_extra_shift lr_uv_shift tx_mode_select
reference_select skip_mode_present allow_warped_motion reduced_tx_set is_global is_rot_zoom is_translation subexp_more_bits
subexp_bits subexp_final_bits
'''.split()
ELEMENTS += [f'found_ref {i}' for i in range(7)]
ELEMENTS += [f'{part} {delta}' for delta in ('y_dc', 'u_dc', 'u_ac', 'v_dc', 'v_ac') for part in ('delta_coded', 'delta_q')]
ELEMENTS += [f'feature_enabled {j}' for j in range(8)] + [f'feature_value {j}' for j in range(8)]
ELEMENTS += [f'loop_filter_level {i}' for i in range(4)] + [f'lr_type {plane}' for plane in range(3)]
# What cannot be: these two have no bits; these three are always in a payload's first byte.
NEVER = [(f'feature_value {j}', outcome) for j in (6, 7) for outcome in (OTHER, CUT)]
NEVER += [(name, CUT) for name in ('frame_type', 'show_frame', 'showable_frame')]

FORKS = [
    'presentation time', 'removal time', 'reference order hints', 'size with references', 'found size is 0',
    'superres narrows', 'intrabc can be', 'motion vectors of references can be', 'superblocks of 128', 'several tiles',
    'columns at least 2 by width', 'rows at least 2 by area', 'increment_tile_cols_log2 can be',
    'increment_tile_rows_log2 can be', 'width_in_sbs_minus_1 limited', 'height_in_sbs_minus_1 limited', 'no columns',
    'area cut by the least number of tiles', 'height of 1 at least', 'colour', 'primary reference', 'delta_lf can be',
    'lossless', 'lossless and not narrowed', 'lossless by the Rust, not by AV1', 'lossless by AV1, not by the Rust',
    'no loop filter', 'loop filter of colour', 'no cdef', 'no restoration', 'lr_uv_shift can be', 'no forward reference',
    'backward reference', 'nearer forward reference', 'second forward reference', 'warped motion can be',
    'translation of high precision', 'more of a subexp', 'shown key refused behind filled slots',
]
# One of several: counted where it is the one.
KINDS = [f'type {kind}, shown {shown}, error resilient {resilient}'
         for kind, shown, resilient in ((0, 0, 0), (0, 0, 1), (0, 1, 1), (1, 0, 0), (1, 0, 1), (1, 1, 0), (1, 1, 1), (2, 0, 0),
                                        (2, 0, 1), (2, 1, 0), (2, 1, 1), (3, 0, 1), (3, 1, 1))]
KINDS += [f'motion of type {kind}' for kind in range(4)]
KINDS += [f'refused with {number}' for number in (14, 17, 18, 20, 41, 42)]

CASES = [(name, outcome) for name in ELEMENTS for outcome in (ZERO, OTHER, CUT) if (name, outcome) not in NEVER]
CASES += [(name, outcome) for name in FORKS for outcome in (NO, YES)]
CASES += [(name, YES) for name in KINDS]


def never_met():
    return [case for case in CASES if not MET[case]]


def unlisted():
    """Met, and not in CASES: then the lists above lack something."""
    return sorted(set(MET) - set(CASES))


def table():
    """A line a name: how often each outcome was met."""
    outcomes = {}
    for name, outcome in CASES:
        outcomes.setdefault(name, []).append(f'{outcome} {MET[name, outcome]:,}')
    return [f'{name:42} ' + ', '.join(counts) for name, counts in outcomes.items()]
