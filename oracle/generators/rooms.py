"""The exported operations with less memory lent than they need, just enough, and more."""

from .assemble import SMALL_ASSEMBLE, every_pattern, make_order, random_request, real_orders
from .base import in_every_room, layer, request
from .container import SMALL_STREAMS, random_obus, spoiled


@layer
def rooms(rng, count, exhaustive):
    lines = [*(f'stream {data}' for data in SMALL_STREAMS), *SMALL_ASSEMBLE, *real_orders(), *every_pattern()]
    for line in lines:
        yield from in_every_room(line)
    for _ in range(count // 12):
        yield from in_every_room(request('stream', spoiled(rng, random_obus(rng, 9))))
        order = make_order(rng).line() if rng.random() < 0.8 else random_request(rng)
        yield from in_every_room(order)
