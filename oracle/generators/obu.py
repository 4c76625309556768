"""OBUs."""

import itertools

from model import PASSING_TYPES, shortest_leb128

from .base import LONGEST_UNIT, PICKED, corpus_streams, damaged, in_rooms, layer, request


def unit_request(unit):
    """Cut where a line would not hold the unit."""
    return request('obus', unit[:LONGEST_UNIT])


SMALL_OBU = [
    'obus -', 'obus 30', 'obus 3200', 'obus 1200', 'obus 10', 'obus 120032002a00', 'obus 320012002a00',
    'obus 328080808080808000', 'obus 328080808080808080', 'obus 32ffffffffffffff7f', 'obus 32ffffffffffffffff',
    'obus 4a00', 'obus 36', 'obus 34', 'obus 4c', 'obus 3201', 'obus 3280', 'obus 32', 'obus 80', 'obus ff',
    'obus cc', 'obus 12004a00', 'obus 12003201', 'obus 120036', 'obus 12008000', 'obus 7a00', 'obus 0200',
    'obus 3400', 'obus 360000', 'obus 36ff01aa', 'obus 330011', 'obus 31aabb', 'obus 10320032',
    'obuput 2 - -', 'obuput 6 - aabb', 'obuput 6 0 -', 'obuput 6 255 01', 'obuput 15 8 00', 'obuput 0 - 00',
    'obuput 9 - -', 'obuput 14 0 00', 'obuput 16 - -', 'obuput 130 - -', 'obuput 255 255 ff',
]

BAD_OBU = [
    'obus', 'obus 0', 'obus 1200 3200', 'obus 12 00', 'obus AA', 'obus --', 'obus 1200 ', 'obus x',
    'obuput', 'obuput 2', 'obuput 2 -', 'obuput 2 - - -', 'obuput 256 - -', 'obuput 2 256 -', 'obuput - - -',
    'obuput 2 -- -', 'obuput 2 - 0', 'obuput 2 - AA', 'obuput -1 - -', 'obuput 2 -1 -', 'obuput 2 ff -',
    'obuput 2  - -', 'obuput 18446744073709551616 - -', 'obuput 2 18446744073709551616 -', 'obuput 1000 - 0',
    'obuput 258 - -', 'obuput 2 258 00', 'obuput 4294967298 - -', 'room 9 0 obuput 2 - -',
]

EDGE_LENGTHS = [0, 1, 2, 126, 127, 128, 129, 255, 256, 16382, 16383, 16384, 16385, 32000]


def picked_obu():
    real = [unit_request(stream) for stream in corpus_streams() if len(stream) < 2000]
    filler = bytes(range(251)) * 66
    edges = [request('obuput', 6, '-', filler[:n]) for n in (126, 127, 128, 129, 16383, 16384)]
    return SMALL_OBU + real + edges


PICKED['obu'] = picked_obu


@layer
def obu(rng, count, exhaustive):
    corpus = corpus_streams()
    yield from picked_obu()
    yield from BAD_OBU
    yield from short_units(3 if exhaustive else 2)
    yield from class_units()
    yield from obuput_requests(rng)
    yield from corpus_requests(rng, corpus)
    for _ in range(count):
        yield random_obu_request(rng, corpus)


def short_units(longest):
    """Every string of up to so many bytes."""
    yield 'obus -'
    for length in range(1, longest + 1):
        for value in range(256 ** length):
            yield f'obus {value:0{2 * length}x}'


def class_units():
    """Every string of three to five bytes of the telling ones."""
    for length in (3, 4, 5):
        for data in itertools.product(b'\x00\x01\x02\x12\x16\x32\x4a\x80\xff', repeat=length):
            yield unit_request(bytes(data))


def obuput_requests(rng):
    for kind in range(256):
        for ext in ('-', 0, 1, 127, 128, 255):
            for length in (0, 1, 127, 128):
                yield request('obuput', kind, ext, rng.randbytes(length))
    for kind in (0, 1, 2, 6, 9, 15):
        for ext in range(256):
            yield request('obuput', kind, ext, rng.randbytes(ext % 5))
    for kind, ext, length in itertools.product((2, 6, 9), ('-', 77), EDGE_LENGTHS):
        payload = rng.randbytes(length)
        yield request('obuput', kind, ext, payload)
        size = 1 + (ext != '-') + len(shortest_leb128(length)) + length
        yield from in_rooms(size, request('obuput', kind, ext, payload))


def corpus_requests(rng, corpus):
    for stream in corpus:
        yield unit_request(stream)
        for length in sorted({*range(min(len(stream), 24)), *rng.choices(range(len(stream)), k=40)}):
            yield unit_request(stream[:length])
        for _ in range(40):
            yield unit_request(damaged(rng, stream))


def random_obu_request(rng, corpus):
    draw = rng.random()
    if draw < 0.3:
        return unit_request(random_unit(rng))
    if draw < 0.6:
        return unit_request(damaged(rng, random_unit(rng)))
    if draw < 0.62:
        return unit_request(damaged(rng, damaged(rng, rng.choice(corpus)[:2000])))
    if draw < 0.8:
        return unit_request(rng.randbytes(rng.choice((3, 3, 4, 5, 6, 12))))
    kind = rng.choice((rng.randrange(16), rng.randrange(256)))
    ext = rng.choice(('-', rng.randrange(256)))
    return request('obuput', kind, ext, rng.randbytes(payload_length(rng)))


def payload_length(rng):
    draw = rng.random()
    if draw < 0.9:
        return rng.randrange(12)
    if draw < 0.998:
        return rng.randrange(120, 140)
    return rng.randrange(16380, 16390)


def random_unit(rng):
    """OBUs one after another, all readable; the last may lack its size."""
    out = b''
    kinds = sorted(PASSING_TYPES)
    for _ in range(rng.randrange(1, 6)):
        out += sized_obu(rng, rng.choice(kinds))
    if rng.random() < 0.2:
        out += unsized_obu(rng, rng.choice(kinds))
    return out


def sized_obu(rng, kind):
    payload = rng.randbytes(payload_length(rng))
    return obu_head(rng, kind, 2) + padded_leb128(rng, len(payload)) + payload


def unsized_obu(rng, kind):
    return obu_head(rng, kind, 0) + rng.randbytes(payload_length(rng))


def obu_head(rng, kind, size_flag):
    extension = rng.randbytes(1) if rng.random() < 0.25 else b''
    return bytes([8 * kind + 4 * len(extension) + size_flag + rng.randrange(2)]) + extension


def padded_leb128(rng, value):
    """The shortest form, or now and then a longer one of up to 8 bytes."""
    out = bytearray(shortest_leb128(value))
    if rng.random() < 0.2:
        for _ in range(rng.randrange(9 - len(out))):
            out[-1] |= 0x80
            out.append(0)
    return bytes(out)
