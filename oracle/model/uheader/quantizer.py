"""The quantizer's numbers, the segments' and what follows from them, AV1 5.9.12 to 5.9.18 and 7.12.2."""

from .elements import sign_and_magnitude, su

SEGMENTS = 8
NO_PRIMARY = 7
DELTAS = ['y_dc', 'u_dc', 'u_ac', 'v_dc', 'v_ac']
DELTA_BITS = 1 + 6
# By feature: its bits, and whether a sign leads them. Only the first one's value matters to a header, the quantizer's.
FEATURES = [(8, 1), (6, 1), (6, 1), (6, 1), (6, 1), (3, 0), (0, 0), (0, 0)]
FEATURE_READS = [(f'feature_enabled {j}', f'feature_value {j}', bits + sign) for j, (bits, sign) in enumerate(FEATURES)]
ALT_Q = 0
ALT_Q_BITS = 1 + 8


def quantization_params(s):
    """5.9.12; the deltas as their bits, 0 where not coded."""
    s.base_q_idx = s.f('base_q_idx', 8)
    s.deltas = dict.fromkeys(DELTAS, 0)
    read_delta_q(s, 'y_dc')
    if s.fork('colour', s.num_planes > 1):
        apart = s.h['separate_uv_delta_q'] and s.f('diff_uv_delta', 1)
        read_delta_q(s, 'u_dc')
        read_delta_q(s, 'u_ac')
        if apart:
            read_delta_q(s, 'v_dc')
            read_delta_q(s, 'v_ac')
        else:
            s.deltas.update(v_dc=s.deltas['u_dc'], v_ac=s.deltas['u_ac'])
    if s.f('using_qmatrix', 1):
        s.f('qm_y', 4)
        s.f('qm_u', 4)
        if s.h['separate_uv_delta_q']:
            s.f('qm_v', 4)


def read_delta_q(s, name):
    """5.9.13"""
    if s.f(f'delta_coded {name}', 1):
        s.deltas[name] = s.f(f'delta_q {name}', DELTA_BITS)


def segmentation_params(s):
    """5.9.14. `features` has for each segment the bits of its quantizer feature, or None; it is empty where there are none."""
    s.features = ()
    if not s.f('segmentation_enabled', 1):
        return
    update_data = 1
    if s.fork('primary reference', s.primary_ref_frame != NO_PRIMARY):
        if s.f('segmentation_update_map', 1):
            s.f('segmentation_temporal_update', 1)
        update_data = s.f('segmentation_update_data', 1)
    if update_data:
        s.features = tuple(segment_features(s) for _ in range(SEGMENTS))
    elif s.av1:
        s.features = s.references[s.primary_ref_frame].features


def segment_features(s):
    found = [s.f(value, n) if s.f(enabled, 1) else None for enabled, value, n in FEATURE_READS]
    return found[ALT_Q]


def delta_q_params(s):
    """5.9.17"""
    if s.base_q_idx > 0:
        s.delta_q_present = s.f('delta_q_present', 1)
        if s.delta_q_present:
            s.f('delta_q_res', 2)


def delta_lf_params(s):
    """5.9.18"""
    if s.fork('delta_lf can be', s.delta_q_present and not s.allow_intrabc) and s.f('delta_lf_present', 1):
        s.f('delta_lf_res', 2)
        s.f('delta_lf_multi', 1)


def lossless(s):
    by_rust, by_av1 = is_lossless(s, sign_and_magnitude), is_lossless(s, su)
    s.fork('lossless by the Rust, not by AV1', by_rust and not by_av1)
    s.fork('lossless by AV1, not by the Rust', by_av1 and not by_rust)
    s.coded_lossless = s.fork('lossless', by_av1 if s.av1 else by_rust)
    s.all_lossless = s.fork('lossless and not narrowed', s.coded_lossless and s.frame_width == s.upscaled_width)


def is_lossless(s, signed):
    """Each segment's qindex (7.12.2) and all deltas are 0. No limit of a feature matters: what is below 0 counts as 0."""
    quantizers = [s.base_q_idx + (0 if bits is None else signed(bits, ALT_Q_BITS)) for bits in s.features or [None]]
    return all(q <= 0 for q in quantizers) and not any(signed(bits, DELTA_BITS) for bits in s.deltas.values())
