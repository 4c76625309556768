"""The slot of refresh flags: all 256 of them, so that none is drawn."""

from .base import PICKED, layer

ALL_FLAGS = [f'slot {flags}' for flags in range(256)]
BAD_SLOT = [
    'slot', 'slot ', 'slot -', 'slot -1', 'slot 256', 'slot 1000', 'slot 18446744073709551615',
    'slot 18446744073709551616', 'slot 0x10', 'slot ff', 'slot 1 1', 'slot 1 ', 'slot  1', 'slots 1', 'room 1 1 slot 1',
]


@layer
def slot(rng, count, exhaustive):
    yield from ALL_FLAGS
    yield from BAD_SLOT
    yield 'slot 007'
    yield 'room 0 0 0 slot 40'


PICKED['slot'] = lambda: ALL_FLAGS
