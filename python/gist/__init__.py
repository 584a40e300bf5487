"""A client of gist, the crash-safe spatial index in a file.

    import gist

    gist.format("places.gist", pages=4096)
    with gist.open("places.gist") as index:
        with index.transaction() as t:
            t.insert(7, (0, 0, 10, 10))
        for row, box in index.search((5, 5, 20, 20)):
            print(row, box)

What is used most:

    format(path, pages)      makes an index, with dimensions=3 of space
    open(path)               opens it; an Index, with
      .transaction()           begins a transaction, for a with block, with
        .insert(row, box)        and delete: one entry
        .insert_many(entries)    and delete_many: many entries
        .overlap(box)            and within, equal, covers: a search
      .search(box)             makes one search, in a transaction of its own
      .search_many(boxes)      makes many, in less time than one by one
      .reading()               begins a transaction that only searches
      .retry(work)             does work(t) anew while others are in the way
      .load(entries)           adds entries by the thousand
    stat(path)               an index in numbers
    verify(path)             tests an index
    migrate(old, new)        brings an index of version 1 into a new file
    GistError                what any call raises; its classes say why

Rows are integers below 2**64, boxes four integers of 32 bits: x1, y1, x2, y2;
in an index of boxes of space six: x1, y1, z1, x2, y2, z2. Where the library
libgist is installed, this process has the index itself (docs/LIBRARY.md);
else, and with embedded=False, an open index is a process of its own, which is
asked over two pipes: a fault of this process leaves it alone. docs/CLIENTS.md
has the whole picture, docs/SCRIPT.md what each call means and each refusal.
"""

from gist._entries import MAX_CORNER, MAX_ROW, MIN_CORNER, Box, Box3, Hits
from gist._files import (Migrated, Report, Stat, dump, format, migrate, open,
                         stat, verify)
from gist._index import Index
from gist._refusals import (Absent, BadBox, BadParameter, BadSession, Busy,
                            CallOpen, ClaimsFull, Damaged, Device, Ended,
                            Failed, GistError, HistoryFull, InTransaction,
                            InUse, Memory, NoCall, NoSession, NotFormatted,
                            NoTransaction, OldVersion, PagesFull,
                            PredicatesFull, Present, ProtocolError, Refused,
                            TooSmall)
from gist._sessions import SESSIONS
from gist._transactions import Reader, Transaction

__all__ = [
    "Absent", "BadBox", "BadParameter", "BadSession", "Box", "Box3", "Busy",
    "CallOpen", "ClaimsFull", "Damaged", "Device", "Ended", "Failed",
    "GistError", "HistoryFull", "Hits", "InTransaction", "InUse", "Index",
    "MAX_CORNER", "MAX_ROW", "MIN_CORNER", "Memory", "Migrated", "NoCall",
    "NoSession", "NoTransaction", "NotFormatted", "OldVersion", "PagesFull",
    "PredicatesFull", "Present", "ProtocolError", "Reader", "Refused",
    "Report", "SESSIONS", "Stat", "TooSmall", "Transaction", "dump", "format",
    "migrate", "open", "stat", "verify"]

__version__ = "0.1.0"

# (in tracebacks and in help they have the names that users know them by)
for _name in __all__:
    if callable(globals()[_name]):
        globals()[_name].__module__ = __name__
