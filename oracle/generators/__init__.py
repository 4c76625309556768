"""The requests of each layer.

A layer is one generator function marked @layer in a module of its own: given a source of random
numbers, how many random requests are wanted, and whether the long exhaustive part is, it yields
request lines: first the picked ones, then systematic ones around every limit, then random ones.
"""

from . import assemble, bitio, container, header, obu, rooms, scan, slot
from .base import LAYERS, PICKED
