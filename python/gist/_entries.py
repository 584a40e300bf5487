"""Boxes and entries, and their lines in the script that the program reads."""

from contextlib import suppress
from itertools import chain, repeat
from struct import Struct
from typing import (Any, Dict, Iterator, List, NamedTuple, Sequence, Tuple,
                    Type, Union)

from gist._refusals import ProtocolError

MAX_ROW = 2 ** 64 - 1
MIN_CORNER = -2 ** 31
MAX_CORNER = 2 ** 31 - 1

# How much of what the program printed is taken apart at once, in bytes.
_BLOCK = 1 << 14

# Makes a box of as many numbers as it has; _make would count them again.
_new: Any = tuple.__new__


class Box(NamedTuple):
    """A box with its edges, of 32-bit integers: x1 <= x2 and y1 <= y2.

    If a box is asked for, any four integers in this order will do.
    """

    x1: int
    y1: int
    x2: int
    y2: int


class Box3(NamedTuple):
    """A box of space with its faces, of 32-bit integers: x1 <= x2, y1 <= y2
    and z1 <= z2.

    An index of boxes of space takes any six integers in this order.
    """

    x1: int
    y1: int
    z1: int
    x2: int
    y2: int
    z2: int


AnyBox = Union[Box, Box3]

# An entry as the library in process has it.
_LAYOUTS: Dict[type, Struct] = {Box: Struct("=Q4i"), Box3: Struct("=Q6i")}


class Hits(Iterator[Tuple[int, AnyBox]]):
    """What a search found, in order by row and then box: an iterator.

    All of it was read when the search was answered, so it may be left half
    way, and outlives its transaction. It is taken apart as it is asked for.
    Its length is how many were found, also once some or all were taken.
    """

    __slots__ = ("count", "_box", "_found", "_is_packed", "_entries")

    def __init__(self, count: int, found: bytes,
                 box: Type[AnyBox] = Box, is_packed: bool = False) -> None:
        #: How many were found, as len() returns.
        self.count = count
        self._box = box
        # (lines of the program, or entries as the library in process has them)
        self._found = found
        self._is_packed = is_packed
        self._entries = self._all()

    def __len__(self) -> int:
        return self.count

    def __bool__(self) -> bool:
        return self.count > 0

    def __iter__(self) -> Iterator[Tuple[int, AnyBox]]:
        return self._entries

    def __next__(self) -> Tuple[int, AnyBox]:
        return next(self._entries)

    def to_numpy(self) -> Any:
        """All that was found, as an array of numpy, whatever was taken: its
        fields are row and the box's corners. It may be one that can't be
        written to.

        Raises ImportError where numpy isn't installed.
        """
        import numpy
        kind = numpy.dtype([("row", "=u8")] + [(name, "=i4")
                                               for name in self._box._fields])
        if self._is_packed:
            return numpy.frombuffer(self._found, kind)
        return numpy.array([(row, *box) for row, box in self._all()], kind)

    def _all(self) -> Iterator[Tuple[int, AnyBox]]:
        if self._is_packed:
            return _unpacked(self._found, self._box)
        return chain.from_iterable(_entries(block, self._box)
                                   for block in _blocks(self._found))


def _unpacked(found: bytes, box: Type[AnyBox]
              ) -> Iterator[Tuple[int, AnyBox]]:
    """The entries of bytes as the library in process has them."""
    for numbers in _LAYOUTS[box].iter_unpack(found):
        yield numbers[0], _new(box, numbers[1:])


def _blocks(lines: bytes) -> Iterator[bytes]:
    """The lines in pieces."""
    start = 0
    while start < len(lines):
        end = lines.find(b"\n", start + _BLOCK) + 1 or len(lines)
        yield lines[start:end]
        start = end


def _entries(lines: bytes, box: Type[AnyBox]
             ) -> List[Tuple[int, AnyBox]]:
    """The entries of lines `S entry R` with a box's corners after it."""
    words = lines.split()
    step = 3 + len(box._fields)
    count = lines.count(b"\n")
    if len(words) == count * step and words[1::step].count(b"entry") == count:
        corners = zip(*[map(int, words[at::step]) for at in range(3, step)])
        # (words that are no numbers raise ValueError)
        with suppress(ValueError):
            boxes = map(_new, repeat(box), corners)
            return list(zip(map(int, words[2::step]), boxes))
    raise ProtocolError("a search was answered with what is no entry")


class Kind:
    """A class of keys: boxes of so many dimensions."""

    def __init__(self, number: int, name: str, box: Type[AnyBox]) -> None:
        #: The number that a file has for it.
        self.number = number
        #: What its boxes are called.
        self.name = name
        self.box = box
        #: How many numbers a box has.
        self.count = len(box._fields)
        self.dimensions = self.count // 2
        self._spell = " ".join(["{:d}"] * self.count).format

    def corners_of(self, box: Sequence[int]) -> str:
        """The words of a box; whether it is reversed is left to the index."""
        # (numbers that aren't whole have no format d)
        with suppress(ValueError):
            return self._spell(*self.numbers_of(box))
        raise self.no_box(box)

    def numbers_of(self, box: Sequence[int]) -> Tuple[int, ...]:
        """The numbers of a box, as many as there have to be, of 32 bits."""
        corners = tuple(box)
        if (len(corners) == self.count and MIN_CORNER <= min(corners)
                and max(corners) <= MAX_CORNER):
            return corners
        raise self.no_box(box)

    def no_box(self, box: Sequence[int]) -> ValueError:
        """Why this isn't a box."""
        if len(tuple(box)) != self.count:
            return ValueError(
                f"{box!r}: the index is of {self.name}, which are "
                f"{self.count} numbers: {', '.join(self.box._fields)}")
        return ValueError(f"{box!r}: corners are integers of 32 bits; "
                          "degrees times 10,000,000 fit")

    def entry_of(self, row: int, box: Sequence[int]) -> str:
        """The words of an entry."""
        corners = self.corners_of(box)
        if 0 <= row <= MAX_ROW:
            with suppress(ValueError):
                return f"{row:d} {corners}"
        raise ValueError(f"row {row!r}: rows are integers from 0 to "
                         "2**64 - 1")


#: Those that this client knows, by their numbers.
KINDS: Dict[int, Kind] = {
    kind.number: kind for kind in (Kind(1, "boxes of the plane", Box),
                                   Kind(3, "boxes of space", Box3))}


def kind_of(dimensions: int) -> Kind:
    """The boxes of so many dimensions."""
    for kind in KINDS.values():
        if kind.dimensions == dimensions:
            return kind
    raise ValueError(f"dimensions is {dimensions!r}: 2 or 3")
