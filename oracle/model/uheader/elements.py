"""Bits taken by the name of their syntax element, with a count of what is met on the way."""

from ..bitio import BITS_RUN_OUT
from ..header import Reading
from ..words import Refused
from .branches import CUT, NO, OTHER, YES, ZERO


class Elements(Reading):
    """A payload read element by element; `met` counts by name and outcome (branches.py)."""

    def __init__(self, payload, met):
        super().__init__(payload)
        self.size = self.left
        self.met = met

    def f(self, name, n):
        """f(n), AV1 4.10.2."""
        self.left -= n
        if self.left < 0:
            self.met[name, CUT] += 1
            raise Refused(BITS_RUN_OUT)
        value = self.bits >> self.left & (1 << n) - 1
        self.met[name, OTHER if value else ZERO] += 1
        return value

    def fork(self, name, taken):
        """A condition that no single element decides."""
        self.met[name, YES if taken else NO] += 1
        return taken

    def position(self):
        return self.size - self.left


def su(value, n):
    """The signed number that n bits are: two's complement, AV1 4.10.6."""
    return value - 2 ** n if value >> n - 1 else value


def sign_and_magnitude(value, n):
    """The same n bits as the Rust takes them."""
    magnitude = value % 2 ** (n - 1)
    return -magnitude if value >> n - 1 else magnitude


def ns(f, name, n):
    """ns(n), AV1 4.10.7."""
    w = n.bit_length()
    m = 2 ** w - n
    v = f(name, w - 1)
    return v if v < m else 2 * v - m + f(name, 1)
