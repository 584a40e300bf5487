"""Entries as lines of text: a row and a box's corners, with commas between."""

import csv
import re
from typing import Iterable, Iterator, List, Tuple

from gist._entries import (MAX_CORNER, MAX_ROW, MIN_CORNER, AnyBox, Kind,
                           kind_of)

_NUMBER = re.compile(r"\s*-?[0-9]+\s*")
_COUNTS = {4: "four", 6: "six"}


class BadLine(ValueError):
    """A line of a table that is no entry; its text says which and why."""


def entries_of(lines: Iterable[str], name: str, dimensions: int = 2
               ) -> Iterator[Tuple[int, AnyBox]]:
    """The entries of a table, whose boxes have so many dimensions; name is
    what a bad line's table is called.

    Empty lines are passed over, and the first line too if none of its
    words is a number.
    """
    kind = kind_of(dimensions)
    table = csv.reader(lines)
    is_first = True
    try:
        for words in table:
            if not words:
                continue
            if not (is_first and not any(map(_NUMBER.fullmatch, words))):
                yield _entry(words, kind)
            is_first = False
    except (csv.Error, ValueError) as fault:
        raise BadLine(f"{name}: line {table.line_num}: {fault}") from None


def _entry(words: List[str], kind: Kind) -> Tuple[int, AnyBox]:
    if (len(words) != 1 + kind.count
            or not all(map(_NUMBER.fullmatch, words))):
        raise ValueError(f"not a row and {_COUNTS[kind.count]} corners, all "
                         "integers")
    row, *corners = map(int, words)
    if not 0 <= row <= MAX_ROW:
        raise ValueError(f"row {row} is outside 0 to 2^64 - 1")
    if min(corners) < MIN_CORNER or max(corners) > MAX_CORNER:
        raise ValueError("a corner is outside 32 bits")
    half = kind.dimensions
    if any(map(int.__gt__, corners[:half], corners[half:])):
        raise ValueError(" or ".join(f"{axis}2 < {axis}1"
                                     for axis in "xyz"[:half]))
    return row, kind.box._make(corners)
