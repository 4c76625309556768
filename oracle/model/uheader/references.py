"""What a frame that has references says of them, AV1 5.9.22 to 5.9.28."""

from .elements import ns, su

REFERENCES = 7
IDENTITY, TRANSLATION, ROTZOOM, AFFINE = range(4)


def skip_mode_params(s):
    """5.9.22"""
    if s.reference_select and s.h['enable_order_hint'] and is_skip_mode_allowed(s):
        s.f('skip_mode_present', 1)


def is_skip_mode_allowed(s):
    def ahead(a, b):
        """get_relative_dist, 5.9.3: how far a is ahead of b, cut to the hint's bits."""
        return su((a - b) % 2 ** s.h['order_hint_bits'], s.h['order_hint_bits'])

    distances = [ahead(slot.order_hint, s.order_hint) for slot in s.references]
    forward = [slot.order_hint for slot, d in zip(s.references, distances) if d < 0]
    if s.fork('no forward reference', not forward):
        return False
    if s.fork('backward reference', any(d > 0 for d in distances)):
        return True
    nearest = forward[0]
    for hint in forward:
        if s.fork('nearer forward reference', ahead(hint, nearest) > 0):
            nearest = hint
    return s.fork('second forward reference', any(ahead(slot.order_hint, nearest) < 0 for slot in s.references))


def global_motion_params(s):
    """5.9.24"""
    for _ in range(REFERENCES):
        kind = global_motion_type(s)
        s.fork(f'motion of type {kind}', True)
        # Parameters 2 and 3, for the last kind 4 and 5 too, all of 12 bits; then 0 and 1.
        for _ in range({ROTZOOM: 2, AFFINE: 4}.get(kind, 0)):
            decode_subexp(s, 12)
        if kind >= TRANSLATION:
            bits = 12
            if kind == TRANSLATION:
                bits = 9 if s.fork('translation of high precision', s.allow_high_precision_mv) else 8
            decode_subexp(s, bits)
            decode_subexp(s, bits)


def global_motion_type(s):
    if not s.f('is_global', 1):
        return IDENTITY
    if s.f('is_rot_zoom', 1):
        return ROTZOOM
    return TRANSLATION if s.f('is_translation', 1) else AFFINE


def decode_subexp(s, abs_bits):
    """5.9.28, for numbers from -(2 ** abs_bits) to 2 ** abs_bits: 2 * 2 ** abs_bits + 1 of them."""
    symbols = 2 * 2 ** abs_bits + 1
    step, low = 3, 0
    while s.fork('more of a subexp', symbols > low + 3 * 2 ** step):
        if not s.f('subexp_more_bits', 1):
            s.f('subexp_bits', step)
            return
        # The first step is taken twice.
        low, step = low + 2 ** step, step + (low > 0)
    ns(s.f, 'subexp_final_bits', symbols - low)
