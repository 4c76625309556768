"""The sizes of a frame, AV1 5.9.5 to 5.9.8."""

SUPERRES_NUM, SUPERRES_DENOM_MIN = 8, 9
FOUND_REF = [f'found_ref {i}' for i in range(7)]


def frame_size(s):
    """5.9.5"""
    if s.frame_size_override_flag:
        s.frame_width = s.f('frame_width_minus_1', s.h['frame_width_bits_minus_1'] + 1) + 1
        s.frame_height = s.f('frame_height_minus_1', s.h['frame_height_bits_minus_1'] + 1) + 1
    else:
        s.frame_width = s.h['max_frame_width_minus_1'] + 1
        s.frame_height = s.h['max_frame_height_minus_1'] + 1
    superres_params(s)


def superres_params(s):
    """5.9.8"""
    denominator = SUPERRES_NUM
    if s.h['enable_superres'] and s.f('use_superres', 1):
        denominator = s.f('coded_denom', 3) + SUPERRES_DENOM_MIN
    s.upscaled_width = s.frame_width
    s.frame_width = (s.upscaled_width * SUPERRES_NUM + denominator // 2) // denominator
    s.fork('superres narrows', s.frame_width < s.upscaled_width)


def render_size(s):
    """5.9.6"""
    s.render_width, s.render_height = s.upscaled_width, s.frame_height
    if s.f('render_and_frame_size_different', 1):
        s.render_width = s.f('render_width_minus_1', 16) + 1
        s.render_height = s.f('render_height_minus_1', 16) + 1


def frame_size_with_refs(s):
    """5.9.7"""
    for name, slot in zip(FOUND_REF, s.references):
        if s.f(name, 1):
            s.fork('found size is 0', slot.frame_width == 0)
            s.frame_width, s.frame_height = slot.upscaled_width, slot.frame_height
            s.render_width, s.render_height = slot.render_width, slot.render_height
            superres_params(s)
            return
    frame_size(s)
    render_size(s)
