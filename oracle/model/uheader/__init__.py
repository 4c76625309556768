"""The scan: whole frame headers in turn, in the standard's own functions, from empty slots."""

from collections import Counter

from ..header import KEY, header_of
from ..words import Refused
from .branches import MET
from .elements import Elements, su
from .frame import EMPTY, State, stored, uncompressed_header
from .quantizer import DELTA_BITS
from .tiles import DIVIDES_BY_ZERO, DividesByZero


def frame_text(s):
    values = [s.insert, s.code.position(), s.frame_type, s.show_frame, s.showable_frame, s.refresh_frame_flags,
              s.frame_width, s.frame_height, s.upscaled_width, s.render_width, s.render_height, s.order_hint,
              s.base_q_idx, *[su(bits, DELTA_BITS) for bits in s.deltas.values()]]
    return ':'.join(map(str, values))


def slot_text(slot):
    return ':'.join(map(str, slot[:-1]))


def scan(payload, frames, av1=False, panic=f'no {DIVIDES_BY_ZERO}', met=MET):
    """A sequence payload that cannot be read refuses the request; the scan's own refusals of it are each frame's."""
    h = header_of(payload)
    slots, texts = EMPTY, []
    for frame, in frames:
        s = State(Elements(frame, met), h, slots, av1)
        try:
            uncompressed_header(s)
            slots = stored(s)
            texts.append(frame_text(s))
        except Refused as refusal:
            texts.append(panic if isinstance(refusal, DividesByZero) else f'no {refusal.args[0]}')
            count_refusal(s, refusal.args[0])
    return ' '.join([*texts, 'slots', *map(slot_text, slots)])


def count_refusal(s, number):
    s.fork(f'refused with {number}', True)
    # There the Rust has cleared the slots by then.
    s.fork('shown key refused behind filled slots', s.frame_type == KEY and s.show_frame and s.slots != EMPTY)


def scan_as_rust(payload, frames):
    return scan(payload, frames, panic='panic', met=Counter())


def scan_by_av1(payload, frames):
    return scan(payload, frames, av1=True, met=Counter())
