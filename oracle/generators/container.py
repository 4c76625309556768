"""Units from and to a stream and Annex B, packets and canonical units."""

import itertools

from model import PASSING_TYPES, shortest_leb128

from .base import (LINE_LIMIT, LONGEST_UNIT, PICKED, TOP, corpus_streams, damaged, in_every_room, layer, request,
                   shared_file)
from .obu import obu_head, padded_leb128

SMALL_STREAMS = [
    '-', '30', '320012002a00', '12002a0012002a00', '328080808080808000', '328080808080808080', '4a00', '36', '3201',
    '80', '4c', '32ffffffffffffff7f', '120032003200', '120032001200', '2a001608002a0012003200', '1032', '103200',
    '1200', '12001200', '2a00', '1200320012002a00', '32002a0012002a001200', '1a0012001a00', '0a0012003200',
    '160800320016100032002a00', '120132120032', '12003200121200', '33', '3100', '12003000', '2a003012',
    '3200120080', '32001200363600', '3a00', '22003200', '7a00', '0200', '120032007a0012001a01b82a00', '1200160800',
    '160012003200', '2a0012001608003200', '32002a001200', '3200120016002a00',
]

SMALL_ANNEXB = [
    '-', '00', '0100', '020000', '03020130', '0403023200', '060501100218b8', '0302014c', '0302014a', '030201b4',
    '03020134', '04030234aa', '80', '8080808080808000', '808080808080808000', '01', '0201', '020180', '0180',
    '030101', '03020100', '03020200', '020100', '03020080', '0302018000', '0000', '000000', '0001', '0403020130',
    '0302013000', '05020130', '020130', '0101', '8300020130', '038200', '0483000130', '048200013000', '0503810030',
    '0706011001183000', '0a0201100201300201280000', '06020110020130', '0402010000', '05040130012a', '05040130022a',
    '05050130012a', '03020133', '0402013000', '06020130020180',
    # sizes inside: none that ends, one of two bytes, too small, too large, behind an extension, none behind it, of eight
    # bytes and of nine, of a type that is refused, in the second OBU, in both, good before bad
    '03020132', '050403328000', '05040332ff80', '050403320000', '050403320200', '060504360801aa', '0403023608',
    '0c0b0a328180808080808000aa', '0d0c0b32818080808080808000aa', '0403024a00', '06050130023200',
    '0706023200023200', '0706023200023201',
]

SMALL_UNITS = [
    '-', '1200', '12001a01b8', '12003200', '30', '10', '160800', '3400', '3201aa', '12001200', '120032001200',
    '32001200', '320012', '320010', '2a0012003000', '33003300', '3280001200', '80', '4a00', '36', '3280', '3201',
    '4c', '1200328000', '12003280001200', '120012008080', '16001608003200', '1201ff1202ffff3200', '34003500',
    '330013003000',
]

SMALL_LISTS = [
    '', '-', '1200', '- -', '1200 3200', '- 1200 -', '80', '1200 80', '4a00 36', '12003200 - 30', '3000 3000',
]

SMALL_PACKETS = [
    '', '5 -', '5 - 6 -', '5 1200', '5 - 6 1200 7 2a00', '1 2a00 2 1200 3 3200', '1 103200', '1 10 2 3200',
    '1 12002a00 2 12003200', '1 3200 2 2a00', '1 3200 2 - 3 2a00', '1 80', '1 2a00 2 80', '1 80 2 2a00',
    '1 80 2 12002a00 3 -', '1 1200 2 4a00 3 1200 4 3200', '1 32003200 2 1200', '18446744073709551615 32001200',
    '0 1200 18446744073709551615 12003200', '9 3200 3 3200 9 2a00', '1 - 2 80 3 -', '1 32 2 2a00', '1 28 2 30',
    '1 30 2 28', '3 12001200 2 12001200', '7 3200 7 12001200 7 80 7 1200 7 12001200',
]

BAD_CONTAINER = [
    'stream', 'stream 0', 'stream 12 00', 'stream AA', 'stream - ', 'annexb', 'annexb 0', 'annexb 00 00',
    'annexb x', 'wstream ', 'wstream 0', 'wstream 1200 ', 'wstream  1200', 'wstream 1200 1', 'wstream 1200 x -',
    'wannexb ', 'wannexb 0', 'wannexb 80 1', 'wannexb 1200  -', 'packets ', 'packets 1', 'packets 1200',
    'packets 1 1200 2', 'packets - 1200', 'packets 1200 -  ', 'packets 18446744073709551616 -', 'packets -1 -',
    'packets 1 1200 1200 x', 'canon', 'canon 0', 'canon - -', 'canon 1200 ', 'room 1 1 stream -',
    'room 1 1 1 stream', 'room 1 x 1 stream -', 'room 1 1 -1 packets', 'room 1 1 1 wstream ',
]

# Header bytes of types 1, 2, 3, 5 and 6 with and without extension and size, one of a type that is refused, and small numbers.
TELLING = [8 * kind + flags for kind in (1, 2, 3, 5, 6) for flags in (0, 2, 4, 6)] + [0x4a, 0x00, 0x01, 0x80]

# The same for Annex B: small lengths (2 and 3 are also headers with a size), OBU headers with and without an extension
# and with a size, an open leb128.
TELLING_ANNEXB = [0x00, 0x01, 0x02, 0x03, 0x04, 0x10, 0x32, 0x34, 0x80]

# Parts of a stream: delimiters of three looks, frames of both types, others, an unsized and a bad one.
PARTS = [bytes.fromhex(part) for part in '1200 160800 1201ff 3200 1a01b8 2a00 0a0100 28 80'.split(' ')]

# Packets of every sort; the last two cannot be read.
PACKETS = [b'', *map(bytes.fromhex, '1200 2a00 10 3200 12003200 2a001200 30 4a00 120080'.split(' '))]

ON_ONE_STRING = ('stream', 'annexb', 'canon', 'wannexb', 'wstream')


def picked_container():
    lines = [f'stream {data}' for data in SMALL_STREAMS]
    lines += [f'annexb {data}' for data in SMALL_ANNEXB]
    lines += [f'{name} {data}' for name in ('canon', 'wannexb') for data in SMALL_UNITS]
    lines += [f'{name} {units}'.rstrip(' ') for name in ('wstream', 'wannexb') for units in SMALL_LISTS]
    lines += [f'packets {packets}'.rstrip(' ') for packets in SMALL_PACKETS]
    for data in corpus_streams():
        if len(data) < 2000:
            lines += [request(name, data) for name in ('stream', 'wannexb', 'canon')]
    lines.append(request('annexb', real_annexb()))
    return list(dict.fromkeys(lines))


PICKED['container'] = picked_container


@layer
def container(rng, count, exhaustive):
    corpus = corpus_streams()
    yield from picked_container()
    yield from BAD_CONTAINER
    yield from telling_strings(4 if exhaustive else 3)
    yield from annexb_strings(6 if exhaustive else 5)
    yield from part_streams(6 if exhaustive else 5)
    yield from packet_lists(rng, 4 if exhaustive else 3)
    yield from groupings(rng, 4 if exhaustive else 3)
    yield from small_annexb(rng)
    yield from room_requests(rng)
    yield from many_requests()
    yield from corpus_requests(rng, corpus)
    for _ in range(count):
        yield random_request(rng, corpus)


def real_annexb():
    """What a real encoder wrote as Annex B."""
    return shared_file('corpus/aom_b160.annexb').read_bytes()


# Systematic requests.

def telling_strings(longest):
    """Every string of telling bytes, to every operation on one string."""
    for length in range(longest + 1):
        for data in itertools.product(TELLING, repeat=length):
            for name in ON_ONE_STRING:
                yield request(name, bytes(data))
            yield request('packets', 7, bytes(data))


def annexb_strings(longest):
    for length in range(1, longest + 1):
        for data in itertools.product(TELLING_ANNEXB, repeat=length):
            yield request('annexb', bytes(data))


def part_streams(longest):
    for length in range(1, longest + 1):
        for parts in itertools.product(PARTS[:-2], repeat=length):
            yield request('stream', b''.join(parts))
    for length in range(1, 5):
        for parts in itertools.product(PARTS, repeat=length):
            yield request('stream', b''.join(parts))
            yield request('canon', b''.join(parts))


def packet_lists(rng, longest):
    for length in range(longest + 1):
        for packets in itertools.product(PACKETS, repeat=length):
            yield packets_request(rng, packets)


def groupings(rng, longest):
    """Every sequence of parts, cut into units at every choice of places."""
    for length in range(1, longest + 1):
        for parts in itertools.product(PARTS, repeat=length):
            for cuts in itertools.product((False, True), repeat=length - 1):
                units = grouped(parts, cuts)
                yield packets_request(rng, units)
                yield request('wstream', *units)
                yield request('wannexb', *units)


def grouped(parts, cuts):
    units = [parts[0]]
    for part, is_cut in zip(parts[1:], cuts):
        if is_cut:
            units.append(part)
        else:
            units[-1] += part
    return units


def packets_request(rng, packets):
    words = []
    for packet in packets:
        words += [random_time(rng), packet]
    return request('packets', *words)


def random_time(rng):
    return rng.choice((0, 1, 7, 40, TOP, rng.randrange(100), rng.getrandbits(64)))


def small_annexb(rng):
    """Every shape of up to two units of up to two frame units of up to two OBUs, each length also wrong by one."""
    obus = (b'\x30', b'\x12\x00', b'\x2c\x08\xaa', b'\x36\x08\x01\xaa')
    frame_units = [list(some) for count in range(3) for some in itertools.product(obus, repeat=count)]
    units = [[], *[[one] for one in frame_units], *[[one, rng.choice(frame_units)] for one in frame_units]]
    for unit in units:
        for other in (None, rng.choice(units)):
            tree = [unit] if other is None else [unit, other]
            yield from with_wrong_lengths(tree)


def with_wrong_lengths(tree):
    """The tree in Annex B as it is, and with each of its lengths one more and one less."""
    yield request('annexb', annexb_of(tree))
    for place in range(lengths_in(tree)):
        for by in (-1, 1):
            yield request('annexb', annexb_of(tree, {place: by}))


def lengths_in(tree):
    return len(tree) + sum(1 + len(frame_unit) for unit in tree for frame_unit in unit)


def annexb_of(tree, wrong={}, leb=shortest_leb128):
    """Units of frame units of OBUs with their lengths; `wrong` adds to the lengths at some places."""
    places = itertools.count()

    def with_length(data):
        return leb(max(0, len(data) + wrong.get(next(places), 0))) + data

    return b''.join(
        with_length(b''.join(
            with_length(b''.join(with_length(obu) for obu in frame_unit))
            for frame_unit in unit))
        for unit in tree)


def room_requests(rng):
    for line in [*small_room_lines(), *[random_listing(rng) for _ in range(300)]]:
        yield from in_every_room(line)


def small_room_lines():
    yield from (f'stream {data}' for data in SMALL_STREAMS)
    yield from (f'annexb {data}' for data in SMALL_ANNEXB)
    yield from (f'canon {data}' for data in SMALL_UNITS)
    yield from (f'{name} {units}'.rstrip(' ') for name in ('wstream', 'wannexb') for units in SMALL_LISTS)
    yield from (f'packets {packets}'.rstrip(' ') for packets in SMALL_PACKETS)


def many_requests():
    """As many units, OBUs and packets as a line holds."""
    most = LONGEST_UNIT
    yield request('annexb', bytes(most))
    yield request('annexb', b'\x01\x00' * (most // 2))
    yield request('annexb', annexb_of([[[b'\x10'] * (most // 2 - 8)]]))
    yield request('annexb', annexb_of([[[b'\x10'] * (most // 2 - 8) + [b'']]]))
    for part in (b'\x32\x00', b'\x12\x00', b'\x12\x00\x32\x00', b'\x2a\x00'):
        for name in ON_ONE_STRING:
            yield request(name, part * (most // len(part)))
    yield request('stream', b'\x30' + bytes(most - 1))
    for name in ('wstream', 'wannexb'):
        yield ' '.join([name] + ['-'] * (most - 10))
        yield ' '.join([name] + ['1200'] * (LINE_LIMIT // 5 - 10))
    for packet in ('-', '1200', '3200', '80'):
        yield ' '.join(['packets'] + [f'7 {packet}'] * (LINE_LIMIT // (len(packet) + 3) - 10))
    for size in (127, 128, 16383, 16384):
        for obu_size in range(size - 6, size + 2):
            unit = b'\x32' + shortest_leb128(obu_size) + bytes(obu_size)
            yield request('wannexb', unit)
            yield request('annexb', annexb_of([[[b'\x30' + bytes(obu_size)]]]))


def corpus_requests(rng, corpus):
    for data in corpus:
        for name in ON_ONE_STRING:
            yield request(name, data)
            for _ in range(6):
                yield request(name, damaged(rng, data))
                yield request(name, data[:rng.randrange(len(data))])
    for first, second in zip(corpus, corpus[1:]):
        yield request('wstream', first, second)
        yield request('wannexb', first, second)
        yield packets_request(rng, [first, second, first])
    data = real_annexb()
    for _ in range(60):
        yield request('annexb', damaged(rng, data))
        yield request('annexb', data[:rng.randrange(len(data))])


# Random requests.

def random_request(rng, corpus):
    if rng.random() < 0.005:
        data = rng.choice(corpus)[:2000]
        return request(rng.choice(ON_ONE_STRING), damaged(rng, damaged(rng, data)))
    line = random_listing(rng)
    return rng.choice(list(in_every_room(line))) if rng.random() < 0.1 else line


def random_listing(rng):
    draw = rng.randrange(16)
    if draw < 5:
        return request('stream', spoiled(rng, random_obus(rng, 9)))
    if draw < 9:
        return request('annexb', random_annexb(rng))
    if draw < 10:
        return request('wstream', *random_units(rng))
    if draw < 12:
        return request('wannexb', *random_units(rng))
    if draw < 15:
        return packets_request(rng, random_units(rng))
    return request('canon', spoiled(rng, random_obus(rng, 6)))


def spoiled(rng, data):
    draw = rng.random()
    if draw < 0.15:
        return damaged(rng, data)
    if draw < 0.2:
        return data[:rng.randrange(len(data) + 1)]
    return data


def random_kind(rng):
    """Delimiters and frames more often than others."""
    return rng.choice((2, 2, 3, 6, 1, 5, rng.choice(sorted(PASSING_TYPES))))


def random_obus(rng, most):
    """OBUs one after another, all readable, in runs with and without frames; the last may lack its size."""
    kinds = [random_kind(rng) for _ in range(rng.randrange(most + 1))]
    if rng.random() < 0.3:
        kinds = [kind for kind in kinds if kind not in (3, 6)]
    out = b''.join(sized(rng, kind) for kind in kinds)
    return out + unsized(rng, random_kind(rng)) if rng.random() < 0.2 else out


def small_length(rng):
    any_small = rng.randrange(10)
    return rng.choice((0, 0, 1, 2, any_small, any_small, any_small, rng.randrange(126, 130)))


def sized(rng, kind):
    payload = rng.randbytes(small_length(rng))
    return obu_head(rng, kind, 2) + padded_leb128(rng, len(payload)) + payload


def unsized(rng, kind):
    return obu_head(rng, kind, 0) + rng.randbytes(small_length(rng))


def random_units(rng):
    """Some of them empty or unreadable, many without a frame."""
    return [spoiled(rng, random_obus(rng, 4)) if rng.random() < 0.9 else b'' for _ in range(rng.randrange(6))]


def random_annexb(rng):
    """Units of frame units of OBUs, any of them empty; in some a length or another byte is wrong."""
    tree = [[random_frame_unit(rng) for _ in range(rng.randrange(4))] for _ in range(rng.randrange(1, 4))]
    draw = rng.random()
    wrong = {}
    if draw < 0.3:
        wrong = {rng.randrange(lengths_in(tree)): rng.choice((-1, 1, 1, rng.randrange(2 ** 40)))}
    data = annexb_of(tree, wrong, lambda value: padded_leb128(rng, value))
    return spoiled(rng, data) if 0.3 <= draw else data


def random_inner_obu(rng):
    """Most without a size; of the others most with the right one."""
    kind, draw = random_kind(rng), rng.random()
    if draw < 0.7:
        return unsized(rng, kind)
    if draw < 0.9:
        return sized(rng, kind)
    if draw < 0.95:
        return damaged(rng, sized(rng, kind))
    return obu_head(rng, kind, 2) + rng.randbytes(small_length(rng))


def random_frame_unit(rng):
    obus = [random_inner_obu(rng) for _ in range(rng.randrange(4))]
    if rng.random() < 0.04:
        obus.append(rng.choice((b'', b'\x34', b'\x80', b'\x4a\x00', b'\x4c', b'\xcc')))
    return obus
