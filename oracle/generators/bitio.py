"""Bits, uvlc and leb128."""

import itertools

from model import shortest_leb128

from .base import PICKED, TOP, in_rooms, layer, request

SMALL_BITIO = [
    'bits - 0 0', 'bits - 0 1', 'bits - 1 0', 'bits 80 0 1', 'bits 01 7 1', 'bits 01 8 0', 'bits 01 8 1',
    'bits 0123456789abcdef 0 64', 'bits 0123456789abcdef01 1 64', 'bits 0123456789abcdef01 8 65',
    'uvlc 80 0', 'uvlc 40 0', 'uvlc 60 0', 'uvlc 00 0', 'uvlc - 0',
    'uvlc 00000001ffffffff 0', 'uvlc 0000000180000000 0', 'uvlc 00000001fffffffe 0', 'uvlc 00000001ffffff 0',
    'uvlc 00000000 0', 'uvlc 00000000 1', 'uvlc 0000000080000000 0', 'uvlc 8000000000 1', 'uvlc 80000000 1',
    'leb -', 'leb 00', 'leb 7f', 'leb 80', 'leb 8001', 'leb 8000', 'leb ffffffff0f', 'leb 8080808080808000',
    'leb ffffffffffffff7f', 'leb ffffffffffffffff', 'leb ffffffffffffffff00', 'leb 808080808080808000',
    'lebput 0', 'lebput 127', 'lebput 128', 'lebput 16383', 'lebput 16384', 'lebput 18446744073709551615',
]

# Read after replay.md: one space between words, lower-case hexadecimal, decimal numbers within u64.
BAD_BITIO = [
    '', ' ', 'bit 00 0 0', 'BITS 00 0 0', 'bits', 'bits 00', 'bits 00 0', 'bits 00 0 0 0', 'bits  00 0 0',
    ' bits 00 0 0', 'bits 00 0 0 ', 'bits 0 0 0', 'bits 000 0 0', 'bits 0g 0 0', 'bits AA 0 0', 'bits 00 -1 0',
    'bits 00 0x1 0', 'bits 00 0 -', 'bits 00 18446744073709551616 0', 'bits 00 0 18446744073709551616',
    'bits -- 0 0', 'bits 00 +1 0', 'uvlc', 'uvlc 00', 'uvlc 00 0 0', 'uvlc 0 0', 'uvlc 00 a', 'leb',
    'leb 0', 'leb 00 00', 'leb 00 ', 'leb Ff', 'leb 0x00', 'lebput', 'lebput -', 'lebput -1', 'lebput a',
    'lebput 1 2', 'lebput 18446744073709551616', 'lebput 99999999999999999999', 'room 1 1 lebput 1',
    'room 1 1 1', 'room 1 1 1 ', 'room 1 a 1 lebput 1', 'room',
]

WIDTHS = [*range(67), 100, 2 ** 32, 2 ** 63, TOP - 1, TOP]


PICKED['bitio'] = lambda: SMALL_BITIO


@layer
def bitio(rng, count, exhaustive):
    yield from SMALL_BITIO
    yield from BAD_BITIO
    yield from leb_requests(rng)
    yield from lebput_requests()
    yield from bits_requests(rng)
    yield from uvlc_requests(rng)
    makers = [random_bits, random_uvlc, random_leb, random_lebput]
    for _ in range(count):
        yield rng.choice(makers)(rng)


def leb_requests(rng):
    for length in range(6):
        for data in itertools.product(b'\x00\x01\x7f\x80\x81\xff', repeat=length):
            yield request('leb', bytes(data))
    for length in (1, 2):
        for data in itertools.product(range(256), repeat=length):
            yield request('leb', bytes(data))
    # Every length up to 10 with its first ending byte at every place, or nowhere.
    for length in range(1, 11):
        for end in range(length + 1):
            for _ in range(40):
                yield request('leb', leb_like(rng, length, end))


def leb_like(rng, length, end):
    """Random bytes of which those before `end` ask for another and that at `end` does not."""
    data = bytearray(rng.choices((0, 1, 0x7f, rng.randrange(256)), k=length))
    for i in range(min(end, length)):
        data[i] |= 0x80
    if end < length:
        data[end] &= 0x7f
    return bytes(data)


def lebput_requests():
    edges = {edge + by for edge in (2 ** power for power in range(65)) for by in range(-2, 3)}
    edges = sorted(v for v in edges if 0 <= v <= TOP)
    for value in sorted({*range(70001), *edges}):
        yield request('lebput', value)
    for value in edges:
        yield from in_rooms(len(shortest_leb128(value)), request('lebput', value))


def bits_requests(rng):
    for length in range(11):
        data = rng.randbytes(length)
        for pos in range(8 * length + 2):
            for n in WIDTHS:
                yield request('bits', data, pos, n)
    for length in (0, 1, 8, 16):
        for pos in far_positions():
            for n in WIDTHS:
                yield request('bits', rng.randbytes(length), pos, n)


def far_positions():
    """Positions near 2^64 and around other widths at which one might wrap."""
    for edge in (2 ** 31, 2 ** 32, 2 ** 35, 2 ** 61, 2 ** 63, 2 ** 64):
        for pos in (edge - 65, edge - 64, edge - 2, edge - 1, edge, edge + 1, edge + 8):
            if pos <= TOP:
                yield pos


def uvlc_requests(rng):
    for zeros in range(41):
        for offset in range(8):
            for before, after in itertools.product('01', ('0', '1', 'random')):
                data = uvlc_data(rng, zeros, offset, before, after)
                # Each length in bytes at each offset: cut behind every bit.
                for length in range(len(data) + 1):
                    yield request('uvlc', data[:length], offset)
    for pos in far_positions():
        yield request('uvlc', rng.randbytes(9), pos)


def uvlc_data(rng, zeros, offset, before, after):
    """`offset` bits, then zeros, a one, and as many bits and some more."""
    more = zeros + 9
    suffix = f'{rng.getrandbits(more):0{more}b}' if after == 'random' else after * more
    text = before * offset + '0' * zeros + '1' + suffix
    text += '0' * (-len(text) % 8)
    return int(text, 2).to_bytes(len(text) // 8, 'big')


def random_bits(rng):
    data = rng.randbytes(rng.randrange(24))
    end = 8 * len(data)
    pos = rng.randrange(end + 3)
    n = rng.choice((rng.randrange(67), max(0, end - pos + rng.randrange(-2, 3))))
    return request('bits', data, pos, n)


def random_uvlc(rng):
    zeros = min(rng.randrange(41), rng.randrange(41))
    offset = rng.randrange(20)
    data = uvlc_data(rng, zeros, offset, rng.choice('01'), 'random')
    if rng.random() < 0.2:
        data = data[:rng.randrange(len(data) + 1)]
    if rng.random() < 0.1:
        offset = rng.randrange(8 * len(data) + 2)
    return request('uvlc', data, offset)


def random_leb(rng):
    length = rng.randrange(11)
    return request('leb', leb_like(rng, length, rng.randrange(length + 1)))


def random_lebput(rng):
    return request('lebput', rng.getrandbits(rng.randrange(1, 65)))
