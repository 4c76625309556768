"""What documents 01 and 02 answer to a request, in plain Python: values and refusal numbers.

Written from 01, 02 and replay.md in another way than the Rust goes about it, and not from our own code,
so that it is a third opinion; its author had read the Rust. An operation not in OPERATIONS has no
model.
"""

from .assembly import assemble, assembly_room, slot
from .bitio import bits, leb, lebput, shortest_leb128, uvlc
from .container import annexb, annexb_as_rust, canon, has_inner_size, packets, stream, wannexb, wstream
from .header import emit, frame, seq, support, timed
from .obu import PASSING_TYPES, obuput, obus
from .uheader import scan, scan_as_rust, scan_by_av1
from .words import NoRequest, Refused, byte, byte_string, hexadecimal, number, number32, optional_byte

NO_ROOM = 35

# Operations of the protocol that have no model yet.
LATER = {'play'}

# By operation: the function, its words, and the words that may follow any number of times (`..`).
OPERATIONS = {
    'bits': (bits, [byte_string, number, number], []),
    'uvlc': (uvlc, [byte_string, number], []),
    'leb': (leb, [byte_string], []),
    'lebput': (lebput, [number], []),
    'obus': (obus, [byte_string], []),
    'obuput': (obuput, [byte, optional_byte, byte_string], []),
    'seq': (seq, [byte_string], []),
    'support': (support, [byte_string], []),
    'emit': (emit, [byte_string], []),
    'timed': (timed, [byte_string, number32, number32], []),
    'frame': (frame, [byte_string, byte_string], []),
    'scan': (scan, [byte_string], [byte_string]),
    'stream': (stream, [byte_string], []),
    'annexb': (annexb, [byte_string], []),
    'wstream': (wstream, [], [byte_string]),
    'wannexb': (wannexb, [], [byte_string]),
    'packets': (packets, [], [number, byte_string]),
    'canon': (canon, [byte_string], []),
    'assemble': (assemble, [number, number32, number32], [byte_string, byte_string, number]),
    'slot': (slot, [byte], []),
}

# The same with the Rust's own readings, where ours differs by intent.
AS_RUST = {
    **OPERATIONS,
    'annexb': (annexb_as_rust, [byte_string], []),
    'scan': (scan_as_rust, [byte_string], [byte_string]),
}

# The same by AV1's own rules, where the scan follows the Rust.
BY_AV1 = {**OPERATIONS, 'scan': (scan_by_av1, [byte_string], [byte_string])}


# What an answer needs of lent memory: bytes, ends or list entries, times or cues; from its text and the values asked with.

def one_string(text, *_):
    return len(byte_string(text)), 0, 0


def unit_list(text, *_):
    units = text.split(' ')[1:]
    return sum(len(byte_string(unit)) for unit in units), len(units), 0


def packet_list(text, *_):
    packets = text.split(' ')[2::2]
    return sum(len(byte_string(packet)) for packet in packets), len(packets), len(packets)


def unit_and_cue_list(_, *asked):
    """Of assembly's bytes the picture bytes count, and not all of them are listed."""
    return assembly_room(*asked)


# Operations that are lent memory.
NEEDS = {
    **dict.fromkeys(['lebput', 'obuput', 'emit', 'timed', 'wstream', 'wannexb', 'canon'], one_string),
    **dict.fromkeys(['stream', 'annexb'], unit_list),
    'packets': packet_list,
    'assemble': unit_and_cue_list,
}


def answer(line, operations=OPERATIONS):
    """The answer to a request, or None where there is no model."""
    name, words, lent = parts(line)
    if name in LATER:
        return None
    try:
        values = perform(operations, name, words, lent)
        return f'ok {values}' if values else 'ok'
    except NoRequest:
        return 'bad line'
    except Refused as refusal:
        return ' '.join(['no', *map(str, refusal.args)])


def parts(line):
    """The operation, its words, and the words B E T of `room B E T ` or None."""
    words = line.split(' ')
    if words[0] == 'room' and len(words) > 4:
        return words[4], words[5:], words[1:4]
    return words[0], words[1:], None


def is_annexb_with_sizes(line):
    """Whether it reads Annex B in which an OBU has its size bit set: there the Rust is no yardstick."""
    name, words, _ = parts(line)
    try:
        return name == 'annexb' and len(words) == 1 and has_inner_size(byte_string(words[0]))
    except NoRequest:
        return False


def perform(operations, name, words, lent):
    if name not in operations:
        raise NoRequest
    function, kinds, repeated = operations[name]
    room = None if lent is None else [number(word) for word in lent]
    asked = arguments(words, kinds, repeated)
    values = function(*asked)
    if room is not None and name in NEEDS:
        if any(need > have for need, have in zip(NEEDS[name](values, *asked), room)):
            raise Refused(NO_ROOM)
    return values


def arguments(words, kinds, repeated):
    """The words' values; those of the repeated words come last, as one list of rows."""
    given, more = words[:len(kinds)], words[len(kinds):]
    if len(given) < len(kinds) or (more and not repeated):
        raise NoRequest
    values = [kind(word) for kind, word in zip(kinds, given)]
    return values + [rows(more, repeated)] if repeated else values


def rows(words, kinds):
    if len(words) % len(kinds):
        raise NoRequest
    chunks = [words[i:i + len(kinds)] for i in range(0, len(words), len(kinds))]
    return [tuple(kind(word) for kind, word in zip(kinds, chunk)) for chunk in chunks]


def room_needed(line):
    """(bytes, ends, times) that the answer to an accepted request fills, or None."""
    name, words, _ = parts(line)
    said = answer(line)
    if name not in NEEDS or not said.startswith('ok '):
        return None
    return NEEDS[name](said[3:], *arguments(words, *OPERATIONS[name][1:]))
