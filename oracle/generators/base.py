"""What the generators share."""

import os
import sys
from pathlib import Path

from model import hexadecimal, room_needed

LAYERS = {}
# By layer: a function that gives requests which the recorded list must have. A layer may have none.
PICKED = {}
LINE_LIMIT = 65536
LONGEST_UNIT = (LINE_LIMIT - 100) // 2
TOP = 2 ** 64 - 1


def layer(function):
    LAYERS[function.__name__] = function
    return function


def request(name, *words):
    return ' '.join([name, *[hexadecimal(w) if isinstance(w, bytes) else str(w) for w in words]])


def in_rooms(size, line):
    """The request with too little lent, just enough, and more, where its answer has so many bytes."""
    for room in sorted({0, 1, size // 2, size - 1, size, size + 1}):
        yield f'room {room} 0 0 {line}'


def in_every_room(line):
    """The request with just enough lent, one short of each kind, none, and more than enough."""
    need = room_needed(line)
    if need is None:
        # Refused for another cause, which comes first.
        rooms = [(0, 0, 0), (9, 9, 9)]
    else:
        rooms = [need, (0, 0, 0), tuple(n + 1 for n in need), tuple(2 * n + 9 for n in need)]
        rooms += [need[:i] + (need[i] - 1,) + need[i + 1:] for i in range(3) if need[i]]
    for room in dict.fromkeys(rooms):
        yield request('room', *room, line)


def shared_file(name):
    """A file or folder of the companion folder."""
    top = Path(__file__).resolve().parents[2]
    return top / os.environ.get('ORACLE_SHARED', '../shared') / name


def corpus_streams():
    """Real encoders' streams, as far as a line holds them."""
    folder = shared_file('corpus')
    files = sorted(folder.glob('*.obu'))
    if not files:
        sys.exit(f'no real streams under {folder} (set ORACLE_SHARED)')
    return [file.read_bytes()[:LONGEST_UNIT] for file in files]


def damaged(rng, data):
    """One bit, byte or length changed, mostly near the start, where the headers are."""
    out = bytearray(data)
    at = rng.choice((rng.randrange(len(out)), rng.randrange(min(len(out), 6)))) if out else 0
    way = rng.randrange(6)
    if way == 0 or not out:
        out.insert(at, rng.choice((0, 0x80, 0xff, rng.randrange(256))))
    elif way == 1:
        del out[at]
    elif way == 2:
        del out[at:]
    elif way == 3:
        out[at] = rng.choice((0, 0x7f, 0x80, 0xff, rng.randrange(256)))
    else:
        out[at] ^= 1 << rng.randrange(8)
    return bytes(out)
