"""Transactions, and what is asked in them."""

from itertools import islice
from typing import (Iterable, List, Optional, Sequence, Tuple, Type,
                    TypeVar)

from gist._entries import Hits
from gist._library import Found, Library
from gist._program import AHEAD, SEARCHES, Call, Program
from gist._refusals import GistError, NoTransaction, ProtocolError, refusal
from gist._sessions import Hold


class Reader:
    """A transaction that searches, and is given up at its end.

    `Index.reading` begins one. What it has searched can't be changed by
    other transactions before it ends: they are refused with Busy. It costs
    no write and no sync.

    It is used by one thread at a time.
    """

    def __init__(self, hold: Hold) -> None:
        self._hold = hold

    @property
    def session(self) -> int:
        """Its session, 1 to 8; 0 once it has ended."""
        return self._hold.session

    def __enter__(self: "_Own") -> "_Own":
        # (Only the with statement holds the transaction itself then. However
        # its block is left, even by a signal as it ends, nobody holds it.)
        return type(self)(self._hold)

    def __exit__(self, kind: Optional[Type[BaseException]],
                 *_: object) -> None:
        try:
            if self._hold.session:
                self._end(is_failing=kind is not None)
        finally:
            self._hold.holder = None

    def overlap(self, box: Sequence[int]) -> Hits:
        """Finds the entries whose box shares a point with this one."""
        return self._search("OVERLAP", box)

    def overlap_each(self, boxes: Sequence[Sequence[int]]) -> List[Hits]:
        """Makes the search of each of up to 16 boxes, as `overlap` does.

        They are written before their answers are read. `Index.search_many`
        makes any number of searches.
        """
        if len(boxes) > SEARCHES:
            raise ValueError(f"{len(boxes)} boxes, and {SEARCHES} at most")
        kind = self._hold.kind
        call = self._asking(*[f"OVERLAP {kind.corners_of(box)}"
                              for box in boxes], is_search=True)
        answers = self._exchange(call)
        if call.answers:
            return [self._hits(answer) for answer in call.answers]
        ends = call.heads[1:] + [len(answers)]
        return [self._hits(answers[at:end])
                for at, end in zip(call.heads, ends)]

    def within(self, box: Sequence[int]) -> Hits:
        """Finds the entries whose box lies in this one."""
        return self._search("WITHIN", box)

    def equal(self, box: Sequence[int]) -> Hits:
        """Finds the entries with this box."""
        return self._search("EQUAL", box)

    def covers(self, box: Sequence[int]) -> Hits:
        """Finds the entries whose box covers this one."""
        return self._search("COVERS", box)

    def abort(self) -> None:
        """Ends the transaction, and drops its changes."""
        self._call("ABORT", b"aborted")
        self._hold.end()

    def _end(self, is_failing: bool) -> None:
        """Ends the transaction at the end of a with block."""
        try:
            self.abort()
        except GistError:
            # (an exception that is under way says more)
            if not is_failing:
                raise

    def _search(self, command: str, box: Sequence[int]) -> Hits:
        sessions = self._hold.sessions
        if sessions and isinstance(sessions.program, Library):
            # (by no lines, which would take most of the time)
            return sessions.program.find(self._hold, command, box)
        corners = self._hold.kind.corners_of(box)
        return self._hits(self._exchange(
            self._asking(f"{command} {corners}")))

    def _hits(self, answer: bytes) -> Hits:
        """What a search found, by its answer; raises its refusal."""
        if isinstance(answer, Found):
            return Hits(answer.count, answer.entries, self._hold.kind.box,
                        is_packed=True)
        head, _, lines = answer.partition(b"\n")
        count = self._result(head, b"found ")
        if not count.isdigit():
            raise self._senseless(head, b"found ")
        return Hits(int(count), lines, self._hold.kind.box)

    def _call(self, words: str, expected: bytes) -> bytes:
        return self._result(self._exchange(self._asking(words))[:-1],
                            expected)

    def _asking(self, *calls: str, is_search: bool = False) -> Call:
        """The call, or calls, of these words in the session."""
        session = self._hold.session
        return Call("".join([f"{session} {words}\n" for words in calls]
                            ).encode(), len(calls), is_search)

    def _exchange(self, call: Call) -> bytes:
        sessions = self._hold.sessions
        if not sessions:
            raise NoTransaction("no transaction")
        return sessions.program.shared(self._ask, sessions.program, call)

    def _ask(self, program: Program, call: Call) -> bytes:
        if not self._hold.session:
            # (the session may be another transaction's by now)
            raise NoTransaction("no transaction")
        return program.ask(call)

    def _result(self, line: bytes, expected: bytes,
                place: Optional[int] = None) -> bytes:
        """What an answer has after a word; raises its refusal."""
        mark = b"%d " % self._hold.session
        answer = line[2:] if line[:2] == mark else b""
        if answer.startswith(expected):
            return answer[len(expected):]
        if answer.startswith(b"refused "):
            fault = refusal(answer[len(b"refused "):], place=place)
            if isinstance(fault, NoTransaction):
                self._hold.end()
            raise fault
        raise self._senseless(line, expected)

    def _senseless(self, line: bytes, expected: bytes) -> ProtocolError:
        """Ends a program that answered what makes no sense."""
        if self._hold.sessions:
            self._hold.sessions.program.kill()
        return ProtocolError(f"{line!r} where {expected!r} was expected")


_Own = TypeVar("_Own", bound=Reader)


class Transaction(Reader):
    """A transaction: its changes are kept as a whole, or not at all.

    `Index.transaction` begins one. At the end of a with block it is
    committed, or given up if an exception leaves the block. A call that
    is refused raises the refusal and changes nothing; if that is caught,
    the transaction goes on. It is used by one thread at a time.
    """

    @property
    def number(self) -> Optional[int]:
        """The commit's number, once it is known to be made."""
        return self._hold.number

    def insert(self, row: int, box: Sequence[int]) -> None:
        """Adds an entry; it must not be there."""
        self._call(f"INSERT {self._hold.kind.entry_of(row, box)}", b"inserted")

    def delete(self, row: int, box: Sequence[int]) -> None:
        """Takes an entry away; it must be there, with just this box."""
        self._call(f"DELETE {self._hold.kind.entry_of(row, box)}", b"deleted")

    def insert_many(self,
                    entries: Iterable[Tuple[int, Sequence[int]]]) -> int:
        """Adds entries, and returns how many.

        Up to 100 are written before their answers are read, which takes a
        fraction of the time of so many inserts. The first refusal is raised,
        with its entry's place; entries after it may have been added then.
        """
        return self._write_many("INSERT", b"inserted", entries)

    def delete_many(self,
                    entries: Iterable[Tuple[int, Sequence[int]]]) -> int:
        """Takes entries away, in the manner of insert_many."""
        return self._write_many("DELETE", b"deleted", entries)

    def commit(self) -> int:
        """Ends the transaction, keeps its changes and returns its number.

        When this returns, they are in the file and outlive a crash; when it
        raises Device or Ended, they are kept whole or not at all. If an
        exception of another kind broke it off, as KeyboardInterrupt, call it
        again: it commits what wasn't committed, and returns the number.
        """
        hold = self._hold
        if not (hold.session and hold.number):
            hold.commit = hold.commit or self._asking("COMMIT")
            try:
                self._result(self._exchange(hold.commit)[:-1], b"committed ")
            except GistError:
                if not hold.number:
                    # (refused, and asked anew by another call)
                    hold.commit = None
                raise
        hold.end()
        assert hold.number
        return hold.number

    def abort(self) -> None:
        """Ends the transaction, and drops its changes.

        If a commit was broken off and yet made, this raises NoTransaction,
        and `number` is the commit's.
        """
        hold = self._hold
        if hold.commit and hold.sessions:
            hold.sessions.program.settle()
            if hold.number:
                hold.end()
        super().abort()

    def _end(self, is_failing: bool) -> None:
        try:
            if not is_failing:
                self.commit()
        finally:
            if self._hold.session:
                super()._end(is_failing=True)

    def _write_many(self, command: str, expected: bytes,
                    entries: Iterable[Tuple[int, Sequence[int]]]) -> int:
        rest = iter(entries)
        entry_of = self._hold.kind.entry_of
        count = 0
        while True:
            calls = [f"{command} {entry_of(row, box)}"
                     for row, box in islice(rest, AHEAD)]
            if not calls:
                return count
            answers = self._exchange(self._asking(*calls))
            for place, line in enumerate(answers.splitlines(), count):
                self._result(line, expected, place)
            count += len(calls)
