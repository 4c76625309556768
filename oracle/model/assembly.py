"""Assembly: the refusals in 01's order, then the list of units and the cues."""

from dataclasses import dataclass, field

from .header import KEY, check_supported, frame_of, header_of, payload_of, timed_header
from .obu import FRAME_TYPES, SEQUENCE_HEADER, obus_of, written
from .words import Refused, hexadecimal

NO_SEGMENTS, SMALL_GOP, SMALL_TOTAL, ZERO_FRAMES, LARGE_TOTAL = 21, 22, 23, 24, 25
NO_HEADER, OTHER_HEADER, NO_FRAME, NOT_SHOWN_KEY = 26, 27, 28, 29
SHOWS_EXISTING, NOT_SHOWN, GOLDEN_IS_KEY, REFRESHES_NOTHING = 30, 31, 32, 33
MOST_FRAMES = 5_000_000
# Stands for a slot where flags refresh none.
NO_SLOT = 8


class AtSegment:
    """Adds the segment to a refusal."""

    def __init__(self, segment):
        self.segment = segment

    def __enter__(self):
        pass

    def __exit__(self, _, error, __):
        if isinstance(error, Refused):
            raise Refused(*error.args, self.segment) from None


def check_counts(gop, boards):
    if not boards:
        raise Refused(NO_SEGMENTS)
    if gop < 2:
        raise Refused(SMALL_GOP)
    counts = [frames for _, _, frames in boards]
    if sum(counts) < 2:
        raise Refused(SMALL_TOTAL)
    if 0 in counts:
        raise Refused(ZERO_FRAMES, counts.index(0))
    if sum(counts) > MOST_FRAMES:
        raise Refused(LARGE_TOTAL)


def header_obus(unit):
    return [obu for obu in obus_of(unit) if obu[0] == SEQUENCE_HEADER]


def common_header(boards):
    """The first key's first sequence header OBU, which may be assembled and which all later keys end on."""
    with AtSegment(0):
        found = header_obus(boards[0][0])
        if not found:
            raise Refused(NO_HEADER)
        check_supported(header_of(found[0][2]))
    for i, (key, _, _) in enumerate(boards[1:], 1):
        with AtSegment(i):
            if [payload for _, _, payload in header_obus(key)[-1:]] != [found[0][2]]:
                raise Refused(OTHER_HEADER)
    return found[0]


def first_frame(h, unit):
    for kind, _, payload in obus_of(unit):
        if kind in FRAME_TYPES:
            return frame_of(h, payload)
    raise Refused(NO_FRAME)


def lowest_slot(flags):
    return f'{flags:08b}'[::-1].index('1') if flags else NO_SLOT


def slot(flags):
    return str(lowest_slot(flags))


def golden_slot(h, key, golden):
    """The slot that a board's show units show."""
    frame = first_frame(h, key)
    if frame.slot is not None or frame.kind != KEY or not frame.shown:
        raise Refused(NOT_SHOWN_KEY)
    frame = first_frame(h, golden)
    if frame.slot is not None:
        raise Refused(SHOWS_EXISTING)
    if not frame.shown:
        raise Refused(NOT_SHOWN)
    if frame.kind == KEY:
        raise Refused(GOLDEN_IS_KEY)
    if not frame.flags:
        raise Refused(REFRESHES_NOTHING)
    return lowest_slot(frame.flags)


def with_header(unit, payload):
    """The unit with its sequence headers replaced; a unit without one is as it was."""
    obus = obus_of(unit)
    if not any(kind == SEQUENCE_HEADER for kind, _, _ in obus):
        return unit
    return written([(kind, extension, payload if kind == SEQUENCE_HEADER else own)
                    for kind, extension, own in obus])


def show_unit(slot):
    """A delimiter and a frame header: show existing, the slot, a one and zeros."""
    return bytes([0x12, 0x00, 0x1a, 0x01, 0x80 + 16 * slot + 8])


def kinds_of(frames, gop):
    """A board's units by kind, and for each whether it is a cue."""
    kinds = []
    while len(kinds) < frames:
        block = min(frames - len(kinds), gop)
        if block == 1 and 'golden' in kinds[:2]:
            kinds.append('show')
        else:
            kinds += ['key', 'golden'][:block] + ['show'] * (block - 2)
    return kinds


@dataclass
class Assembly:
    header_obu: tuple
    slots: list = field(default_factory=list)
    units: list = field(default_factory=list)
    cues: list = field(default_factory=list)
    picture_bytes: int = 0


def assembled(gop, fps, fps_den, boards):
    check_counts(gop, boards)
    made = Assembly(common_header(boards))
    h = header_of(made.header_obu[2])
    new_payload = None
    if not h['timing_info_present']:
        new_payload = payload_of(timed_header(h, fps, fps_den))
        made.header_obu = (SEQUENCE_HEADER, None, new_payload)
    for i, (key, golden, frames) in enumerate(boards):
        with AtSegment(i):
            if new_payload is not None:
                key, golden = with_header(key, new_payload), with_header(golden, new_payload)
            made.slots.append(golden_slot(h, key, golden))
        bytes_of = {'key': key, 'golden': golden, 'show': show_unit(made.slots[-1])}
        kinds = kinds_of(frames, gop)
        made.cues += [len(made.units) + place for place, kind in enumerate(kinds, 1) if kind == 'key']
        made.units += [bytes_of[kind] for kind in kinds]
        made.picture_bytes += len(key) + len(golden)
    return made


def assemble(gop, fps, fps_den, boards):
    made = assembled(gop, fps, fps_den, boards)
    shown_cues = ','.join(map(str, made.cues))
    words = [len(made.units), made.slots[0], hexadecimal(written([made.header_obu])), shown_cues]
    return ' '.join(map(str, words + [hexadecimal(unit) for unit in made.units]))


def assembly_room(gop, fps, fps_den, boards):
    """The picture bytes of all boards, listed or not, the list entries and the cues."""
    made = assembled(gop, fps, fps_den, boards)
    return made.picture_bytes, len(made.units), len(made.cues)
