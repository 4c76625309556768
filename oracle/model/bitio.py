"""Bits, uvlc and leb128. 01 does not say what a read of more than 64 bits answers: 14 is a decision
of the project."""

from .words import Refused, hexadecimal

BITS_RUN_OUT = 14
UVLC_TOO_LONG = 16
BAD_LEB128 = 4


def bits(data, pos, n):
    if n > 64 or pos + n > 8 * len(data):
        raise Refused(BITS_RUN_OUT)
    behind = 8 * len(data) - pos - n
    value = (int.from_bytes(data, 'big') >> behind) % 2 ** n
    return f'{value} {pos + n}'


def uvlc(data, pos):
    ahead = ''.join(f'{b:08b}' for b in data)[pos:]
    zeros = ahead[:32].find('1')
    if zeros < 0:
        raise Refused(UVLC_TOO_LONG if len(ahead) >= 32 else BITS_RUN_OUT)
    suffix = ahead[zeros + 1:2 * zeros + 1]
    if len(suffix) < zeros:
        raise Refused(BITS_RUN_OUT)
    value = 2 ** zeros - 1 + int('0' + suffix, 2)
    return f'{value} {pos + 2 * zeros + 1}'


def leb128(data):
    """The value and how many bytes it takes."""
    value = 0
    for i, b in enumerate(data[:8]):
        value += b % 128 * 128 ** i
        if b < 128:
            return value, i + 1
    raise Refused(BAD_LEB128)


def shortest_leb128(value):
    out = []
    while value >= 128:
        out.append(128 + value % 128)
        value //= 128
    return bytes(out + [value])


def leb(data):
    value, size = leb128(data)
    return f'{value} {size}'


def lebput(value):
    return hexadecimal(shortest_leb128(value))
