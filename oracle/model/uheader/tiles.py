"""The tiles of a frame, AV1 5.9.15 and 5.9.16, by their sizes in superblocks alone."""

from ..words import Refused
from .elements import ns

MAX_TILE_WIDTH, MAX_TILE_AREA, MAX_TILE_COLS, MAX_TILE_ROWS = 4096, 4096 * 2304, 64, 64
DIVIDES_BY_ZERO = 14


class DividesByZero(Refused):
    """Where the Rust panics."""


def tile_log2(size, target):
    """5.9.16"""
    k = 0
    while size << k < target:
        k += 1
    return k


def tile_info(s):
    log2 = 7 if s.fork('superblocks of 128', s.h['use_128x128_superblock']) else 6
    # In superblocks: a size is first rounded up to 8, which a superblock is a multiple of.
    s.sb_cols, s.sb_rows = -(-s.frame_width >> log2), -(-s.frame_height >> log2)
    s.max_tile_width = MAX_TILE_WIDTH >> log2
    s.min_log2_cols = tile_log2(s.max_tile_width, s.sb_cols)
    s.min_log2_tiles = max(s.min_log2_cols, tile_log2(MAX_TILE_AREA >> 2 * log2, s.sb_rows * s.sb_cols))
    cols_log2, rows_log2 = (uniform_tiles if s.f('uniform_tile_spacing_flag', 1) else explicit_tiles)(s)
    if s.fork('several tiles', cols_log2 + rows_log2 > 0):
        s.f('context_update_tile_id', cols_log2 + rows_log2)
        s.f('tile_size_bytes_minus_1', 2)


def uniform_tiles(s):
    s.fork('columns at least 2 by width', s.min_log2_cols > 0)
    most = tile_log2(1, min(s.sb_cols, MAX_TILE_COLS))
    cols = incremented(s, 'increment_tile_cols_log2', s.min_log2_cols, most)
    least = max(s.min_log2_tiles - cols, 0)
    s.fork('rows at least 2 by area', least > 0)
    most = tile_log2(1, min(s.sb_rows, MAX_TILE_ROWS))
    return cols, incremented(s, 'increment_tile_rows_log2', least, most)


def incremented(s, name, log2, most):
    while s.fork(f'{name} can be', log2 < most) and s.f(name, 1):
        log2 += 1
    return log2


def explicit_tiles(s):
    widths = tile_sizes(s, 'width_in_sbs_minus_1', s.sb_cols, s.max_tile_width)
    if s.fork('no columns', not widths):
        raise DividesByZero(DIVIDES_BY_ZERO)
    area = s.sb_rows * s.sb_cols
    if s.fork('area cut by the least number of tiles', s.min_log2_tiles > 0):
        area >>= s.min_log2_tiles + 1
    s.fork('height of 1 at least', area < max(widths))
    heights = tile_sizes(s, 'height_in_sbs_minus_1', s.sb_rows, max(area // max(widths), 1))
    return tile_log2(1, len(widths)), tile_log2(1, len(heights))


def tile_sizes(s, name, left, limit):
    sizes = []
    while left > 0:
        s.fork(f'{name} limited', left > limit)
        sizes.append(ns(s.f, name, min(left, limit)) + 1)
        left -= sizes[-1]
    return sizes
