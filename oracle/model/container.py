"""Units from and to a stream and Annex B, packets, and canonical units."""

from .bitio import leb128, shortest_leb128
from .obu import (BAD_TYPE, DELIMITER, FORBIDDEN_BIT, FRAME_TYPES, NO_EXTENSION, PASSING_TYPES,
                  has_frame, head, obus_of, written)
from .words import Refused, counted, hexadecimal

# Refusals of a length's own form, and of a length past the end of what holds it.
UNIT_FAULTS, FRAME_UNIT_FAULTS, OBU_FAULTS = (6, 7), (8, 9), (10, 11)
EMPTY_OBU, EMPTY_INPUT = 12, 13
OTHER_SIZE = 40

SIZE_BIT = 0x02


def is_delimiter(obu):
    return obu[0] == DELIMITER


def join(front, back):
    """One unit of two: the first delimiter at the head of either part leads, the others go."""
    heads = [part[0] for part in (front, back) if part and is_delimiter(part[0])]
    return heads[:1] + [obu for obu in front + back if not is_delimiter(obu)]


# The stream.

def opened_units(obus):
    """The units as delimiters and frames open them."""
    units = []
    for obu in obus:
        opens = is_delimiter(obu) or (obu[0] in FRAME_TYPES and units and has_frame(units[-1]))
        if opens or not units:
            units.append([])
        units[-1].append(obu)
    return units


def stream_units(data):
    done, waiting = [], []
    for unit in opened_units(obus_of(data)):
        if has_frame(unit):
            done.append(join(waiting, unit))
            waiting = []
        else:
            waiting += unit
    if waiting and done:
        done[-1] = join(done[-1], waiting)
    elif waiting:
        done = [waiting]
    return [written(unit) for unit in done]


# Annex B.

def cut(data, faults):
    """The bytes that a leading length counts, and those behind them."""
    bad_length, overrun = faults
    try:
        size, read = leb128(data)
    except Refused:
        raise Refused(bad_length) from None
    if size > len(data) - read:
        raise Refused(overrun)
    return data[read:read + size], data[read + size:]


def annexb_units(data, honoured=True):
    """`honoured`: whether the size bit of an inner OBU is looked at; in the Rust it is not."""
    if not data:
        raise Refused(EMPTY_INPUT)
    units = []
    while data:
        unit, data = cut(data, UNIT_FAULTS)
        units.append(written(inner_obu(obu, honoured) for obu in obus_of_unit(unit)))
    return units


def obus_of_unit(unit):
    """The bytes of each OBU of an Annex B unit, through its frame units, taken one by one as they are met."""
    while unit:
        frame_unit, unit = cut(unit, FRAME_UNIT_FAULTS)
        while frame_unit:
            obu, frame_unit = cut(frame_unit, OBU_FAULTS)
            yield obu


def inner_obu(data, honoured):
    """An OBU that fills its bytes; a size must count what is behind it."""
    if not data:
        raise Refused(EMPTY_OBU)
    header = data[0]
    if header & 0x80:
        raise Refused(FORBIDDEN_BIT)
    start = 2 if header & 0x04 else 1
    if len(data) < start:
        raise Refused(NO_EXTENSION)
    kind = header >> 3
    if kind not in PASSING_TYPES:
        raise Refused(BAD_TYPE)
    extension = data[1] if start == 2 else None
    if honoured and header & SIZE_BIT:
        size, read = leb128(data[start:])
        start += read
        if size != len(data) - start:
            raise Refused(OTHER_SIZE)
    return kind, extension, data[start:]


def reached(data, faults):
    """The parts that lengths lead to, up to the end or the first bad length."""
    try:
        while data:
            part, data = cut(data, faults)
            yield part
    except Refused:
        pass


def has_inner_size(data):
    """Whether an OBU to which the lengths lead has its size bit set."""
    return any(obu[:1] and obu[0] & SIZE_BIT
               for unit in reached(data, UNIT_FAULTS)
               for frame_unit in reached(unit, FRAME_UNIT_FAULTS)
               for obu in reached(frame_unit, OBU_FAULTS))


def with_length(data):
    return shortest_leb128(len(data)) + data


def annexb_bytes(unit):
    """One frame unit, its OBUs without sizes."""
    frame_unit = b''.join(with_length(head(kind, extension, 0) + payload)
                          for kind, extension, payload in obus_of(unit))
    return with_length(with_length(frame_unit))


# Packets.

def readable(packet):
    """The packet's OBUs, or None."""
    try:
        return obus_of(packet)
    except Refused:
        return None


def merged(packets):
    done, waiting, first_time = [], [], None
    for time, packet in packets:
        obus = readable(packet)
        if obus is None:
            done.append((time, written(waiting) + packet))
            waiting = []
        elif has_frame(obus):
            done.append((time, written(join(waiting, obus))))
            waiting = []
        elif obus:
            first_time = time if not waiting else first_time
            waiting += obus
    if not waiting:
        return done
    if not done:
        return [(first_time, written(waiting))]
    return done[:-1] + [with_tail(*done[-1], waiting)]


def with_tail(time, packet, tail):
    obus = readable(packet)
    return time, packet + written(tail) if obus is None else written(join(obus, tail))


# Operations. A list's rows are tuples of one word or two.

def stream(data):
    return counted([hexadecimal(unit) for unit in stream_units(data)])


def annexb(data, honoured=True):
    return counted([hexadecimal(unit) for unit in annexb_units(data, honoured)])


def annexb_as_rust(data):
    return annexb(data, honoured=False)


def wstream(rows):
    return hexadecimal(b''.join(unit for unit, in rows))


def wannexb(rows):
    return hexadecimal(b''.join(annexb_bytes(unit) for unit, in rows))


def packets(rows):
    return counted([f'{time} {hexadecimal(packet)}' for time, packet in merged(rows)])


def canon(unit):
    obus = readable(unit)
    if obus is None or not any(map(is_delimiter, obus[1:])):
        return hexadecimal(unit)
    return hexadecimal(written(obus[:1] + [obu for obu in obus[1:] if not is_delimiter(obu)]))
