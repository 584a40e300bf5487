"""Where a box lies on a Hilbert curve: boxes that are near each other on the
curve are near each other in the plane, or in space."""

from functools import lru_cache
from itertools import product
from typing import Dict, List, Sequence, Tuple

#: How many bytes a place has at most.
PLACE = 12

_HALF = 2 ** 32

# What a curve does in a cell, by the part of it: the part's place, and the
# order in which its own parts are taken.
_Order = Tuple[Tuple[int, int], ...]

# The curve takes the quarters of a square in one of four orders; a quarter is
# 2 * (is it right) + (is it upper).
_QUARTERS = (
    ((0, 1), (1, 0), (3, 3), (2, 0)),
    ((0, 0), (3, 2), (1, 1), (2, 1)),
    ((2, 2), (3, 1), (1, 2), (0, 3)),
    ((2, 3), (1, 3), (3, 0), (0, 2)))

# The way through the octants of a cube that is taken first: from one to the
# next a single bit changes. For each the octant in which the way within it
# begins, and the bit by which that differs from the one in which it ends.
_WAY = (0, 1, 3, 2, 6, 7, 5, 4)
_BEGINS = (0, 0, 0, 3, 3, 6, 6, 5)
_ALONG = (0, 1, 1, 2, 2, 1, 1, 0)


def place_of(box: Sequence[int]) -> int:
    """The place of the box's middle on the curve: below 2 ** 64 in the
    plane, and below 2 ** 96 in space."""
    return _place_in_plane(*box) if len(box) == 4 else _place_in_space(*box)


def _place_in_plane(x1: int, y1: int, x2: int, y2: int) -> int:
    steps = _steps_in_plane()
    x, y = x1 + x2 + _HALF >> 1, y1 + y2 + _HALF >> 1
    place = order = 0
    for shift in (28, 24, 20, 16, 12, 8, 4, 0):
        digits, order = steps[order][(x >> shift & 15) << 4 | y >> shift & 15]
        place = place << 8 | digits
    return place


def _place_in_space(x1: int, y1: int, z1: int,
                    x2: int, y2: int, z2: int) -> int:
    steps = _steps_in_space()
    x, y, z = (x1 + x2 + _HALF >> 1, y1 + y2 + _HALF >> 1,
               z1 + z2 + _HALF >> 1)
    place = order = 0
    for shift in range(30, -1, -2):
        digits, order = steps[order][(x >> shift & 3) << 4
                                     | (y >> shift & 3) << 2 | z >> shift & 3]
        place = place << 6 | digits
    return place


@lru_cache(maxsize=None)
def _steps_in_plane() -> Tuple[_Order, ...]:
    return _steps(_QUARTERS, axes=2, bits=4)


@lru_cache(maxsize=None)
def _steps_in_space() -> Tuple[_Order, ...]:
    return _steps(_octants(), axes=3, bits=2)


def _steps(orders: Sequence[_Order], axes: int, bits: int
           ) -> Tuple[_Order, ...]:
    """What so many steps at once do, from each order on, by so many bits of
    each axis."""
    return tuple(
        tuple(_walk(orders, order, numbers, bits)
              for numbers in product(range(2 ** bits), repeat=axes))
        for order in range(len(orders)))


def _walk(orders: Sequence[_Order], order: int, numbers: Tuple[int, ...],
          bits: int) -> Tuple[int, int]:
    place = 0
    for bit in range(bits - 1, -1, -1):
        part = 0
        for number in numbers:
            part = part << 1 | number >> bit & 1
        digit, order = orders[order][part]
        place = place << len(numbers) | digit
    return place, order


def _octants() -> List[_Order]:
    """The orders in which the curve takes the octants of a cube (Hamilton
    2006): an octant is 4 * (half of x) + 2 * (half of y) + (half of z)."""
    # (an order is the first octant, and by how far the bits are turned)
    numbers: Dict[Tuple[int, int], int] = {(0, 1): 0}
    left = [(0, 1)]
    orders: List[_Order] = []
    for first, turn in left:
        order = [(0, 0)] * 8
        for place in range(8):
            inner = (first ^ _turned(_BEGINS[place], turn),
                     (turn + _ALONG[place] + 1) % 3)
            if inner not in numbers:
                numbers[inner] = len(left)
                left.append(inner)
            order[first ^ _turned(_WAY[place], turn)] = place, numbers[inner]
        orders.append(tuple(order))
    return orders


def _turned(octant: int, by: int) -> int:
    """The three bits of an octant, turned to the left."""
    return (octant << by | octant >> 3 - by) & 7
