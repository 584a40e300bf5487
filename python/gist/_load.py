"""Loads entries into an index in the order of their places.

Inserts that are near each other change few leaves, and a leaf that the log
has already costs little: a load of 100,000 boxes in random order takes six
times as many syncs as a sorted one.
"""

import heapq
import os
import tempfile
from contextlib import closing
from itertools import islice, starmap
from operator import index as integer
from struct import Struct
from typing import (TYPE_CHECKING, Any, BinaryIO, Callable, Iterable, Iterator,
                    List, Optional, Sequence, Tuple)

from gist._entries import Kind
from gist._place import PLACE, place_of
from gist._refusals import Refused

if TYPE_CHECKING:
    from gist._index import Index

Entry = Tuple[int, Sequence[int]]
# A place on the curve, the row and the corners.
_Placed = Tuple[Any, ...]

# So many entries are sorted in memory; of more, such runs go to a file.
_RUN = 100_000
# So many go into a commit. Open transactions write 512 entries at most.
_PART = 500
# So many seconds a commit waits for a session, and for others in its way.
_WAIT = 10.0
# How many entries of a run are read at once.
_BLOCK = 512


def load(index: "Index", kind: Kind, entries: Iterable[Entry],
         progress: Optional[Callable[[int], object]] = None) -> int:
    """Adds entries, sorted by place, 500 a commit; returns how many.

    All entries are read and sorted before the first is added. progress is
    called after each commit with how many are committed so far. What is
    raised says how many were, and has that number as its attribute
    committed; if the index refused an entry, it has that one as entry.
    A commit that was broken off may be in the file too.
    """
    done = 0
    part: List[Entry] = []
    try:
        with closing(_sorted(kind, entries)) as placed:
            while True:
                part = [(it[1], it[2:]) for it in islice(placed, _PART)]
                if not part:
                    return done
                index.retry(lambda t: t.insert_many(part), tries=None,
                            wait=_WAIT, within=_WAIT)
                done += len(part)
                if progress:
                    progress(done)
    except BaseException as fault:
        _note(fault, done, part)
        raise


def _note(fault: BaseException, done: int, part: List[Entry]) -> None:
    """Adds to an exception what it is to say of the load."""
    told = f"{done} entries are committed"
    fault.committed = done  # type: ignore[attr-defined]
    if not isinstance(fault, Refused):
        # (a traceback has it then, from Python 3.11 on)
        getattr(fault, "add_note", str)(told)
        return
    if fault.place is not None:
        row, box = part[fault.place]
        told = f"row {row}, box {box}; {told}"
        fault.entry = row, box  # type: ignore[attr-defined]
        fault.place = None
    fault.sentence = "; ".join(filter(None, (fault.sentence, told)))


def _placed(kind: Kind, entry: Entry) -> _Placed:
    row, box = entry
    # (this raises what an insert of the entry would)
    kind.entry_of(row, box)
    corners = tuple(map(integer, box))
    place = place_of(corners).to_bytes(PLACE, "big")
    return (place, integer(row), *corners)


def _sorted(kind: Kind, entries: Iterable[Entry]) -> Iterator[_Placed]:
    """The entries in the order of their places."""
    placed = (_placed(kind, it) for it in entries)
    run = sorted(islice(placed, _RUN))
    if len(run) < _RUN:
        yield from run
        return
    record = Struct(f"={PLACE}sQ{kind.count}i")
    with tempfile.TemporaryFile() as file:
        ends = [0]
        while run:
            file.write(b"".join(starmap(record.pack, run)))
            ends.append(file.tell())
            run = sorted(islice(placed, _RUN))
        file.flush()
        yield from heapq.merge(*(_run(file, record, start, end)
                                 for start, end in zip(ends, ends[1:])))


def _run(file: BinaryIO, record: Struct, start: int, end: int
         ) -> Iterator[_Placed]:
    """The entries between two places of a file of records."""
    block = _BLOCK * record.size
    for at in range(start, end, block):
        yield from record.iter_unpack(
            os.pread(file.fileno(), min(block, end - at), at))
