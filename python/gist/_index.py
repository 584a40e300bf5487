"""An open index."""

import random
import time
from itertools import islice
from os import fspath
from typing import (Any, Callable, Iterable, List, Optional, Sequence, Tuple,
                    Type, TypeVar, Union)

from gist._entries import KINDS, Hits, kind_of
from gist._library import Library
from gist._load import load
from gist._numbers import numbers_of
from gist._process import AnyPath, words_of
from gist._program import SEARCHES, Call, Program
from gist._refusals import Busy, ProtocolError
from gist._sessions import Hold, Sessions
from gist._transactions import Reader, Transaction

# The longest pauses of retry, in seconds: the first doubles up to the last.
_PAUSE, _LAST_PAUSE = 0.002, 0.064
# How long a search waits for a session, and tries again, in seconds.
_SEARCHING = 5.0

_Result = TypeVar("_Result")
_Kind = TypeVar("_Kind", bound=Reader)


class Index:
    """An open index; `gist.open` opens one.

    Threads may share it: each call is a whole by itself, and each thread
    makes its calls in transactions of its own.
    """

    def __init__(self, path: AnyPath, frames: int,
                 program: Optional[AnyPath],
                 embedded: bool = False) -> None:
        #: The file's path, as it was given.
        self.path = path
        if embedded:
            self._program: Union[Program, Library] = Library(fspath(path),
                                                             frames)
            self._kind = kind_of(self._program.dimensions)
        else:
            self._start(path, frames, program)
        self._sessions = Sessions(self._program, path, self._kind)

    def _start(self, path: AnyPath, frames: int,
               program: Optional[AnyPath]) -> None:
        """Starts the program that has the index."""
        self._program = Program(words_of(
            program, "run", "--frames", f"{frames:d}", "--", fspath(path)))
        # (this changes nothing, and is answered once the index is open)
        answer = self._program.exchange(Call(b"0 ABORT\n"))
        if answer != b"0 refused 15 bad session\n":
            end = self._program.close(answer)
            raise end or ProtocolError(f"{answer!r} as the index was opened")
        # (nobody else can format the file while the program has it open)
        _, _, number = numbers_of(path)
        if number not in KINDS:
            self._program.kill()
            raise ProtocolError(f"an index of class {number} was opened")
        self._kind = KINDS[number]

    def __enter__(self) -> "Index":
        return self

    def __exit__(self, kind: Optional[Type[BaseException]],
                 *_: object) -> None:
        end = self._program.close()
        if end and kind is None:
            raise end

    @property
    def pid(self) -> int:
        """The number of the process that has the index: the program's, or
        this one's where it is embedded."""
        return self._program.pid

    @property
    def dimensions(self) -> int:
        """2 if its boxes are four numbers, as Box; 3 if they are six,
        as Box3."""
        return self._kind.dimensions

    def transaction(self, wait: Optional[float] = 0.0) -> Transaction:
        """Begins a transaction in one of the sessions that are free.

        If none is free this waits for one, so many seconds at most, or
        as long as it takes (None); then it raises NoSession.
        """
        return self._begin(Transaction, wait)

    def reading(self, wait: Optional[float] = 0.0) -> Reader:
        """Begins a transaction that only searches and costs no sync."""
        return self._begin(Reader, wait)

    def search(self, box: Sequence[int]) -> Hits:
        """Finds the entries whose box shares a point with this one.

        It is a transaction of its own. If another one is in the way, this
        tries again for five seconds, and then raises Busy.
        """
        return self.retry(lambda t: t.overlap(box), reading=True, tries=None,
                          wait=_SEARCHING, within=_SEARCHING)

    def search_many(self, boxes: Iterable[Sequence[int]]) -> List[Hits]:
        """Makes the search of each box, and returns what they found.

        Sixteen are a transaction, and are asked before the first is answered,
        which takes less time than a search each. For the rest as `search`.
        """
        rest = iter(boxes)
        hits: List[Hits] = []
        while True:
            some = list(islice(rest, SEARCHES))
            if not some:
                return hits
            hits += self.retry(lambda t: t.overlap_each(some), reading=True,
                               tries=None, wait=_SEARCHING, within=_SEARCHING)

    def load(self, entries: Iterable[Tuple[int, Sequence[int]]],
             progress: Optional[Callable[[int], object]] = None) -> int:
        """Adds entries of any number, in many commits; returns how many.

        All are read and sorted by place before the first is added, and then
        committed 500 at a time. progress(done) is called after each commit.
        An exception that breaks it off says how many are committed, and has
        that number as its attribute committed.
        """
        return load(self, self._kind, entries, progress)

    def retry(self, work: Callable[[Any], _Result], reading: bool = False,
              tries: Optional[int] = 20, wait: Optional[float] = 0.0,
              within: Optional[float] = None) -> _Result:
        """Does work(transaction), commits, and returns what it returned.

        If another transaction is in the way (Busy), it is all given up and
        done anew after a short pause: so many times in all, and for so many
        seconds; None is no bound. With reading, work is given a Reader.
        """
        if tries is not None and tries < 1:
            raise ValueError("tries is at least 1")
        end = None if within is None else time.monotonic() + within
        tried = 0
        while True:
            tried += 1
            try:
                with self._begin(Reader if reading else Transaction,
                                 wait) as transaction:
                    return work(transaction)
            except Busy:
                left = _LAST_PAUSE if end is None else end - time.monotonic()
                if tried == tries or left <= 0:
                    raise
            longest = min(_PAUSE * 2 ** min(tried, 10), _LAST_PAUSE)
            time.sleep(min(random.uniform(0, longest), left))

    def close(self) -> None:
        """Gives up what is open, waits for the program's end, and raises
        why it didn't end well. To close once more does nothing.

        In a signal handler, while its thread is within a call of the index,
        this ends the program at once, and the call raises Ended.
        """
        end = self._program.close()
        if end:
            raise end

    def _begin(self, kind: Type[_Kind], wait: Optional[float]) -> _Kind:
        hold = Hold(self._sessions)
        transaction = kind(hold)
        self._sessions.begin(hold, transaction, wait)
        return transaction
