"""Headers as ffmpeg reads them: its filter trace_headers prints each syntax element with its place, bits and value."""

import re
import subprocess

LINE = r'^\[trace_headers @ \w+\] '
ELEMENT = re.compile(LINE + r'(\d+) +(\S+) +([01]*) = (-?\d+)$', re.M)
# Of a header, of what is no header, or an error's text.
TITLE = re.compile(LINE + r'([A-Z].*)$', re.M)
HEADERS = {'Sequence Header', 'Frame Header'}
PARTS = HEADERS | {'OBU header', 'Temporal Delimiter', 'Tile Group'}
BEHIND_HEADER = {'zero_bit', 'trailing_one_bit', 'trailing_zero_bit'}


class Block:
    """The elements of one header: name -> value, and name -> the position behind it, counted from the header's start."""

    def __init__(self, text):
        found = [(int(place), name, len(bits), int(value)) for place, name, bits, value in ELEMENT.findall(text)]
        start = found[0][0]
        inside = [element for element in found if element[1] not in BEHIND_HEADER]
        self.values = {name: value for _, name, _, value in inside}
        self.ends = {name: place + bits - start for place, name, bits, _ in inside}
        # A number made of several elements stands behind them, with their place and no bits.
        self.end = max(place + bits for place, _, bits, _ in inside) - start
        # What ffmpeg found behind the header; nothing where it could not read it to its end.
        self.behind = [name for _, name, _, _ in found if name in BEHIND_HEADER]

    def get(self, name, absent=0):
        return self.values.get(name, absent)


def packets(stream, form):
    """The texts of ffmpeg's packets, in order. The form is that of the file, as ffmpeg names it."""
    # It need not look into the pictures first.
    words = ['-hide_banner', '-nostats', '-analyzeduration', '0', '-f', form, '-i', stream, '-c', 'copy']
    done = subprocess.run(['ffmpeg', *words, '-bsf:v', 'trace_headers', '-f', 'null', '-'], capture_output=True, text=True,
                          errors='replace', check=True)
    return re.split(LINE + 'Packet: .*$', done.stderr, flags=re.M)[1:]


def headers(text):
    """The sequence and frame headers of a packet's text: (title, Block)."""
    parts = TITLE.split(text)
    return [(title, Block(block)) for title, block in zip(parts[1::2], parts[2::2]) if title in HEADERS]


def stop(text):
    """Why ffmpeg did not read a packet to its end."""
    return '; '.join(title for title in TITLE.findall(text) if title not in PARTS)
