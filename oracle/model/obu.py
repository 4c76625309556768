"""OBUs. An OBU is (type, extension or None, payload)."""

from .bitio import leb128, shortest_leb128
from .words import Refused, counted, hexadecimal

FORBIDDEN_BIT, BAD_TYPE, NO_EXTENSION, OVERRUN = 1, 2, 3, 5

PASSING_TYPES = {0, 1, 2, 3, 4, 5, 6, 7, 8, 15}
SEQUENCE_HEADER = 1
DELIMITER = 2
FRAME_TYPES = {3, 6}


def first_obu(unit):
    """Type, extension and payload of the first OBU, and what follows it."""
    header, rest = unit[0], unit[1:]
    if header & 0x80:
        raise Refused(FORBIDDEN_BIT)
    kind = header >> 3
    if kind not in PASSING_TYPES:
        raise Refused(BAD_TYPE)
    extension = None
    if header & 0x04:
        if not rest:
            raise Refused(NO_EXTENSION)
        extension, rest = rest[0], rest[1:]
    size = len(rest)
    if header & 0x02:
        size, read = leb128(rest)
        rest = rest[read:]
    if size > len(rest):
        raise Refused(OVERRUN)
    return kind, extension, rest[:size], rest[size:]


def obus_of(unit):
    found = []
    while unit:
        kind, extension, payload, unit = first_obu(unit)
        found.append((kind, extension, payload))
    return found


def has_frame(obus):
    return any(kind in FRAME_TYPES for kind, _, _ in obus)


def head(kind, extension, size_flag):
    """The header byte, reserved bit 0, and the extension byte if there is one."""
    if extension is None:
        return bytes([8 * kind + size_flag])
    return bytes([8 * kind + 4 + size_flag, extension])


def written(obus):
    """The OBUs one after another in written form."""
    return b''.join(head(kind, extension, 2) + shortest_leb128(len(payload)) + payload
                    for kind, extension, payload in obus)


# Operations.

def obus(unit):
    texts = []
    for kind, extension, payload in obus_of(unit):
        shown = '-' if extension is None else extension
        texts.append(f'{kind}:{shown}:{hexadecimal(payload)}')
    return counted(texts)


def obuput(kind, extension, payload):
    if kind not in PASSING_TYPES:
        raise Refused(BAD_TYPE)
    return hexadecimal(written([(kind, extension, payload)]))
