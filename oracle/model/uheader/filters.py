"""What the filters are told, AV1 5.9.11, 5.9.19 and 5.9.20."""

from .quantizer import DELTA_BITS


def loop_filter_params(s):
    """5.9.11"""
    if s.fork('no loop filter', s.coded_lossless or s.allow_intrabc):
        return
    levels = [s.f('loop_filter_level 0', 6), s.f('loop_filter_level 1', 6)]
    if s.fork('loop filter of colour', s.num_planes > 1 and any(levels)):
        s.f('loop_filter_level 2', 6)
        s.f('loop_filter_level 3', 6)
    s.f('loop_filter_sharpness', 3)
    if s.f('loop_filter_delta_enabled', 1) and s.f('loop_filter_delta_update', 1):
        for kind, count in (('ref', 8), ('mode', 2)):
            for _ in range(count):
                if s.f(f'update_{kind}_delta', 1):
                    s.f(f'loop_filter_{kind}_deltas', DELTA_BITS)


def cdef_params(s):
    """5.9.19"""
    if s.fork('no cdef', s.coded_lossless or s.allow_intrabc or not s.h['enable_cdef']):
        return
    s.f('cdef_damping_minus_3', 2)
    for _ in range(2 ** s.f('cdef_bits', 2)):
        for plane in ('y', 'uv')[:s.num_planes]:
            s.f(f'cdef_{plane}_pri_strength', 4)
            s.f(f'cdef_{plane}_sec_strength', 2)


def lr_params(s):
    """5.9.20; a type of 0 is none."""
    if s.fork('no restoration', s.all_lossless or s.allow_intrabc or not s.h['enable_restoration']):
        return
    types = [s.f(f'lr_type {plane}', 2) for plane in range(s.num_planes)]
    if not any(types):
        return
    if s.f('lr_unit_shift', 1) and not s.h['use_128x128_superblock']:
        s.f('lr_unit_extra_shift', 1)
    if s.fork('lr_uv_shift can be', s.h['subsample_x'] and s.h['subsample_y'] and any(types[1:])):
        s.f('lr_uv_shift', 1)
