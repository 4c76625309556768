"""Assembly. A request is an Order: the settings and the boards; a fault spoils one of them in one way,
and orders with two faults show which is told first."""

import itertools
import random
from dataclasses import dataclass, field

from model.obu import written

from .base import LINE_LIMIT, PICKED, TOP, corpus_streams, damaged, layer, request
from .header import PLAIN, READABLE, TIMED
from .header_bits import bytes_of, closed, make_frame, make_header
from .obu import obu_head, padded_leb128

KEY_UNIT = '12000a09' + PLAIN + '320110'
TIMED_KEY_UNIT = '12000a11' + TIMED + '320110'
GOLDEN_UNIT = '120032023810'
MOST_FRAMES = 5_000_000
LONGEST_LIST = 4096

SMALL_ASSEMBLE = [
    f'assemble 3 25 1 {KEY_UNIT} {GOLDEN_UNIT} 4 {KEY_UNIT} {GOLDEN_UNIT} 1',
    *[f'assemble {gop} 25 1 {KEY_UNIT} {GOLDEN_UNIT} {frames}'
      for gop in (0, 1, 2, 3, 4, TOP) for frames in (0, 1, 2, 3, 4, 5, 7)],
    'assemble 3 25 1', 'assemble 0 25 1', 'assemble 2 0 0', f'assemble 3 0 0 {KEY_UNIT} {GOLDEN_UNIT} 2',
    f'assemble 3 4294967295 4294967295 {KEY_UNIT} {GOLDEN_UNIT} 2',
    f'assemble 3 25 1 {TIMED_KEY_UNIT} {GOLDEN_UNIT} 4', f'assemble 3 25 1 {TIMED_KEY_UNIT} 80 4',
    f'assemble 3 25 1 {KEY_UNIT} 80 4', f'assemble 3 25 1 - - {MOST_FRAMES}',
    f'assemble 3 25 1 - - {MOST_FRAMES + 1}', f'assemble 3 25 1 - - {TOP} - - 2',
    f'assemble 3 25 1 - - 0 - - {TOP} - - 3', 'assemble 3 25 1 - - 0 - - 1', 'assemble 3 25 1 - - 0 - - 2',
    'assemble 3 25 1 - - 0', f'assemble 3 25 1 {KEY_UNIT} {GOLDEN_UNIT} 0 {KEY_UNIT} {GOLDEN_UNIT} 2',
    f'assemble 3 25 1 {KEY_UNIT} - {MOST_FRAMES}', f'assemble 3 25 1 {KEY_UNIT} {GOLDEN_UNIT} {MOST_FRAMES + 1}',
    f'assemble 3 25 1 - - {MOST_FRAMES // 2} - - {MOST_FRAMES // 2}',
    f'assemble 3 25 1 - - {MOST_FRAMES // 2} - - {MOST_FRAMES // 2 + 1}',
]

BAD_ASSEMBLE = [
    'assemble', 'assemble 3', 'assemble 3 25', 'assemble 3 25 1 -', 'assemble 3 25 1 - -',
    'assemble 3 25 1 - - 1 -', 'assemble 3 4294967296 1', 'assemble 3 25 4294967296',
    'assemble 18446744073709551616 25 1', 'assemble - 25 1', 'assemble 3 25 1 - - 18446744073709551616',
    'assemble 3 25 1 - - -', 'assemble 3 25 1 0 - 2', 'assemble 3 25 1 - x 2', 'assemble 3 25 1 ',
    'assemble 3 -1 1', 'room 1 1 assemble 3 25 1',
]


@dataclass
class Board:
    key: bytes
    golden: bytes
    frames: int


@dataclass
class Order:
    gop: int
    fps: int
    fps_den: int
    boards: list
    # What the sequence header says of frames, and its payload.
    facts: dict = field(default_factory=dict)
    payload: bytes = b''

    def line(self):
        words = [word for board in self.boards for word in (board.key, board.golden, board.frames)]
        return request('assemble', self.gop, self.fps, self.fps_den, *words)


def picked_assemble():
    lines = SMALL_ASSEMBLE + [line for line in real_orders() if len(line) < 4000]
    return lines + list(every_pattern()) + list(every_position())


PICKED['assemble'] = picked_assemble


@layer
def assemble(rng, count, exhaustive):
    yield from SMALL_ASSEMBLE
    yield from BAD_ASSEMBLE
    yield from real_orders()
    yield from every_pattern()
    yield from every_position()
    yield from list_requests(rng)
    yield from fault_requests(rng, 6 if exhaustive else 2)
    for _ in range(count):
        yield random_request(rng)


def real_orders():
    """Real encoders' keys and goldens; files come in threes: golden, key, and both."""
    streams = corpus_streams()
    pairs = [(key, golden) for golden, key, _ in zip(streams[0::3], streams[1::3], streams[2::3])]
    lines = [request('assemble', 3, 30, 1, key, golden, 4) for key, golden in pairs]
    lines += [request('assemble', 3, 30, 1, key, golden, 1, key, golden, 2) for key, golden in pairs]
    lines += [request('assemble', 2, 30000, 1001, *pair, 1, *other, 3) for pair, other in zip(pairs, pairs[1:])]
    return lines


# Orders without a fault.

def make_order(rng, boards=None, **pinned):
    """All boards under one sequence header that assembly takes."""
    supported = dict(READABLE, seq_profile=rng.choice((0, 0, 1, 2)), timing_info_present=rng.randrange(2),
                     equal_picture_interval=1, ticks_zeros=rng.randrange(3), film_grain_params_present=0,
                     operating_points_cnt_minus_1=rng.choice((0, 0, 0, 1, 4)))
    text, facts = make_header(rng, **{**supported, **pinned})
    order = Order(rng.choice((2, 2, 3, 3, 4, 5, 9, TOP)), small_rate(rng), small_rate(rng), [], facts, closed(text))
    for _ in range(boards or rng.choice((1, 1, 2, 2, 3, 5))):
        order.boards.append(make_board(rng, order))
    if sum(board.frames for board in order.boards) < 2:
        order.boards[0].frames = 2
    return order


def small_rate(rng):
    return rng.choice((0, 1, 25, 30000, 1001, 2 ** 32 - 1, rng.getrandbits(32)))


def make_board(rng, order):
    key = make_unit(rng, [(1, order.payload), *others(rng), key_frame(rng, order), *others(rng)])
    parts = [*others(rng), golden_frame(rng, order), *others(rng)]
    if rng.random() < 0.2:
        # A golden may have sequence headers of its own, of any bytes: they are replaced, or copied.
        parts.insert(0, (1, rng.choice((order.payload, rng.randbytes(5)))))
    return Board(key, make_unit(rng, parts), rng.choice((1, 2, 3, rng.randrange(1, 12))))


def key_frame(rng, order):
    return frame_part(rng, order, show_existing_frame=0, frame_type=0, show_frame=1)


def golden_frame(rng, order, **pinned):
    flags = rng.choice((1 << rng.randrange(8), rng.randrange(1, 256)))
    wanted = dict(show_existing_frame=0, frame_type=rng.choice((1, 1, 2, 3)), show_frame=1, refresh_frame_flags=flags)
    return frame_part(rng, order, **{**wanted, **pinned})


def frame_part(rng, order, **pinned):
    """A frame as (type, payload)."""
    text = make_frame(rng, order.facts, **pinned)
    return rng.choice((3, 6)), bytes_of(text) + rng.randbytes(rng.randrange(4))


def others(rng):
    """OBUs that are neither frames nor sequence headers."""
    count = rng.choice((0, 0, 0, 1, 2))
    return [(rng.choice((0, 2, 4, 5, 7, 8, 15)), rng.randbytes(rng.randrange(4))) for _ in range(count)]


def make_unit(rng, parts):
    """The OBUs of the parts, in any look: extensions, long sizes, reserved bits, the last without a size."""
    if rng.random() < 0.4:
        return written([(2, None, b'')] + [(kind, None, payload) for kind, payload in parts])
    out = b''
    for place, (kind, payload) in enumerate(parts, 1):
        if place == len(parts) and rng.random() < 0.2:
            out += obu_head(rng, kind, 0) + payload
        else:
            out += obu_head(rng, kind, 2) + padded_leb128(rng, len(payload)) + payload
    return out


def list_requests(rng):
    """Every frame count up to 20 with every spacing up to 9, alone and before and behind another board."""
    for frames, gop in itertools.product(range(1, 21), range(2, 10)):
        order = make_order(rng, 1)
        order.gop, order.boards[0].frames = gop, frames
        yield order.line()
        order = make_order(rng, 3)
        order.gop, order.boards[1].frames = gop, frames
        yield order.line()
    for flags in range(256):
        order = make_order(rng, 1)
        order.boards[0].golden = make_unit(rng, [golden_frame(rng, order, frame_type=1, refresh_frame_flags=flags)])
        yield order.line()
    # As long a list as boardlist has room for, and many boards.
    order = make_order(rng, 1)
    order.boards[0].frames, order.gop = LONGEST_LIST, 100
    yield order.line()
    board = f'{KEY_UNIT} {GOLDEN_UNIT} 1'
    yield ' '.join(['assemble 2 25 1'] + [board] * ((LINE_LIMIT - 20) // (len(board) + 1)))


def every_pattern():
    """All boards whose goldens refresh something, in one list, with and without timing."""
    for key in (KEY_UNIT, TIMED_KEY_UNIT):
        boards = [f'{key} 12003202{0x3800 + 2 * flags:04x} 3' for flags in range(1, 256)]
        yield ' '.join(['assemble 3 25 1', *boards])


# Faults, in the order in which 01 lists the refusals. Each is given the order and a board's place.

def no_segments(rng, order, i):
    order.boards = []


def small_gop(rng, order, i):
    order.gop = rng.randrange(2)


def small_total(rng, order, i):
    for board in order.boards:
        board.frames = 0
    if order.boards and rng.random() < 0.5:
        order.boards[i].frames = 1


def zero_frames(rng, order, i):
    order.boards[i].frames = 0


def large_total(rng, order, i):
    order.boards[i].frames = rng.choice((MOST_FRAMES + 1, TOP))


def bad_key(rng, order, i):
    order.boards[i].key += unreadable(rng)


def unreadable(rng):
    """Bytes behind which a unit is refused, 1 to 5; behind an unsized OBU they are payload."""
    return rng.choice(UNREADABLE)


# Refused with 1 to 5.
UNREADABLE = (b'\x80', b'\x4a\x00', b'\x36', b'\x32\x80', b'\x32\x01')


def no_header(rng, order, i):
    order.boards[i].key = make_unit(rng, [key_frame(rng, order)])


def cut_header(rng, order, i):
    change_header(rng, order, order.payload[:rng.randrange(len(order.payload) or 1)])


def change_header(rng, order, payload):
    """Every key anew, with this payload."""
    order.payload = payload
    for board in order.boards:
        board.key = make_unit(rng, [(1, payload), key_frame(rng, order)])


def unsupported_header(rng, order, i):
    pin_header(rng, order, rng.choice(UNSUPPORTED))


# Refused with 15 to 20.
UNSUPPORTED = (
    dict(seq_profile=5), dict(timing_info_present=1, equal_picture_interval=1, ticks_zeros=32),
    dict(reduced_still_picture_header=1), dict(frame_id_numbers_present=1),
    dict(timing_info_present=1, equal_picture_interval=0, decoder_model_info_present=1),
    dict(film_grain_params_present=1),
)


def pin_header(rng, order, pinned):
    text, order.facts = make_header(rng, **{**READABLE, 'film_grain_params_present': 0, **pinned})
    change_header(rng, order, closed(text))


def other_header(rng, order, i):
    """The last sequence header of a key is another; of a first key that does not matter."""
    other = damaged(rng, order.payload)
    order.boards[i].key = make_unit(rng, [(1, order.payload), key_frame(rng, order), (1, other)])


def bad_golden(rng, order, i):
    order.boards[i].golden += unreadable(rng)


def key_without_frame(rng, order, i):
    order.boards[i].key = make_unit(rng, [(1, order.payload), *others(rng)])


def cut_key(rng, order, i):
    order.boards[i].key = make_unit(rng, [(1, order.payload), cut_frame(key_frame(rng, order))])


def cut_frame(part):
    kind, _ = part
    return kind, b''


def not_a_shown_key(rng, order, i):
    pinned = rng.choice((dict(show_existing_frame=1), dict(show_existing_frame=0, frame_type=rng.randrange(1, 4)),
                         dict(show_existing_frame=0, frame_type=0, show_frame=0)))
    pin_key(rng, order, i, pinned)


def pin_key(rng, order, i, pinned):
    order.boards[i].key = make_unit(rng, [(1, order.payload), frame_part(rng, order, **pinned)])


def golden_without_frame(rng, order, i):
    order.boards[i].golden = make_unit(rng, others(rng))


def cut_golden(rng, order, i):
    order.boards[i].golden = make_unit(rng, [cut_frame(golden_frame(rng, order))])


def set_golden(rng, order, i, **pinned):
    order.boards[i].golden = make_unit(rng, [golden_frame(rng, order, **pinned), *others(rng)])


def existing_golden(rng, order, i):
    set_golden(rng, order, i, show_existing_frame=1)


def hidden_golden(rng, order, i):
    set_golden(rng, order, i, show_frame=0, frame_type=rng.randrange(4))


def key_golden(rng, order, i):
    set_golden(rng, order, i, frame_type=0)


def idle_golden(rng, order, i):
    set_golden(rng, order, i, frame_type=rng.choice((1, 2)), refresh_frame_flags=0)


FAULTS = [
    no_segments, small_gop, small_total, zero_frames, large_total, bad_key, no_header, cut_header, unsupported_header,
    other_header, bad_golden, key_without_frame, cut_key, not_a_shown_key, golden_without_frame, cut_golden,
    existing_golden, hidden_golden, key_golden, idle_golden,
]


def unread_key(rng, order, i, end):
    parts = [(1, order.payload), key_frame(rng, order)]
    order.boards[i].key = written([(kind, None, payload) for kind, payload in parts]) + end


def unread_golden(rng, order, i, end):
    kind, payload = golden_frame(rng, order)
    order.boards[i].golden = written([(kind, None, payload)]) + end


def with_last(fault, last):
    """The fault in one of its ways."""
    return lambda rng, order, i: fault(rng, order, i, last)


# The faults again, each way of one by itself.
POSITIONS = [
    no_segments, small_gop, small_total, zero_frames, large_total, *[with_last(unread_key, end) for end in UNREADABLE],
    no_header, cut_header, *[with_last(lambda rng, order, i, pinned: pin_header(rng, order, pinned), pinned)
                             for pinned in UNSUPPORTED],
    other_header, *[with_last(unread_golden, end) for end in UNREADABLE], key_without_frame, cut_key,
    *[with_last(pin_key, pinned) for pinned in (
        dict(show_existing_frame=1), dict(show_existing_frame=0, frame_type=1),
        dict(show_existing_frame=0, frame_type=0, show_frame=0))],
    golden_without_frame, cut_golden, existing_golden, hidden_golden, key_golden, idle_golden,
]


def every_position():
    """A refusal in every position of 01's order, in each board of three, alone and before the one next in order."""
    rng = random.Random('every position')
    for timing, place in itertools.product((0, 1), range(len(POSITIONS))):
        first = POSITIONS[place]
        for i in range(3):
            yield with_faults(rng, timing, [(first, i)])
        for later in POSITIONS[place + 1:place + 2]:
            yield with_faults(rng, timing, [(later, 1), (first, 1)])


def fault_requests(rng, rounds):
    """Each fault alone and each two together, in every board of three, with and without timing."""
    for _, timing in itertools.product(range(rounds), (0, 1)):
        for fault, i in itertools.product(FAULTS, range(3)):
            yield with_faults(rng, timing, [(fault, i)])
        for first, second in itertools.product(FAULTS, repeat=2):
            for i, j in itertools.product(range(3), repeat=2):
                yield with_faults(rng, timing, [(first, i), (second, j)])


def with_faults(rng, timing, faults):
    order = make_order(rng, 3, timing_info_present=timing)
    for fault, i in faults:
        if i < len(order.boards):
            fault(rng, order, i)
    return order.line()


# Random requests.

def random_request(rng):
    draw = rng.random()
    if draw < 0.35:
        return make_order(rng).line()
    order = make_order(rng)
    if draw < 0.6:
        i = rng.randrange(len(order.boards))
        board = order.boards[i]
        if rng.random() < 0.5:
            board.key = damaged(rng, board.key)
        else:
            board.golden = damaged(rng, board.golden)
        return order.line()
    for _ in range(rng.choice((1, 1, 1, 2, 3))):
        if order.boards:
            rng.choice(FAULTS)(rng, order, rng.randrange(len(order.boards)))
    return order.line()
