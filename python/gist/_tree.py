"""The lines of a dump, taken apart."""

from typing import Iterable, Iterator, List, NamedTuple, Tuple

from gist._entries import KINDS, AnyBox
from gist._refusals import ProtocolError

_BOXES = {kind.count: kind.box for kind in KINDS.values()}


class Page(NamedTuple):
    """A page of the tree, and what is on it."""

    number: int
    #: 0 for a leaf.
    level: int
    #: How many children or entries it has.
    count: int
    #: The pages below it, with their bounds.
    children: List[Tuple[int, AnyBox]]
    #: A leaf's entries: row, box, and whether it is live.
    entries: List[Tuple[int, AnyBox, bool]]


def live_entries(lines: Iterable[str]) -> Iterator[Tuple[int, AnyBox]]:
    """The live entries of a dump, page by page."""
    for line in lines:
        if line.startswith("entry ") and line.endswith(" live"):
            row, *corners = map(int, line.split()[1:-1])
            yield row, _box(corners)


def pages_of(lines: Iterable[str]) -> Iterator[Page]:
    """The pages of a dump, from the root's on."""
    page = None
    for line in lines:
        kind, *words = line.split()
        if kind == "page":
            if page:
                yield page
            page = Page(int(words[0]), int(words[2]), int(words[8]), [], [])
        elif kind == "child" and page:
            number, *corners = map(int, words)
            page.children.append((number, _box(corners)))
        elif kind == "entry" and page:
            row, *corners = map(int, words[:-1])
            page.entries.append((row, _box(corners), words[-1] == "live"))
    if page:
        yield page


def _box(corners: List[int]) -> AnyBox:
    """The box with these corners."""
    if len(corners) not in _BOXES:
        raise ProtocolError(f"a box of {len(corners)} numbers in a dump")
    return _BOXES[len(corners)]._make(corners)
