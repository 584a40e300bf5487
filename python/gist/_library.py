"""An index in process: libgist, by ctypes.

It has the calls of a running program (`_program`), so that transactions and
sessions are the same over both: it takes a call's lines, and returns the
answers that the program would print. What a search found is handed on as the
library has it, and is taken apart as it is asked for.
"""

import ctypes
import os
import threading
import warnings
import weakref
from functools import partial
from struct import calcsize, pack
from typing import Any, Callable, List, Optional, Sequence, Tuple, TypeVar

from gist._entries import Hits
from gist._libgist import BOXES, BUSY, ENDED, OK, End, fault_of, library
from gist._program import CUT_OFF, FORKED, Call
from gist._refusals import Ended, GistError, NoTransaction, refusal

_Result = TypeVar("_Result")

# The numbers of queries, as gist_client.h has them.
_QUERIES = {"OVERLAP": 0, "WITHIN": 1, "EQUAL": 2, "COVERS": 3}
_SESSIONS = 8


class Found(bytes):
    """The answer to a search, whose entries aren't spelled."""

    #: How many they are, and their bytes.
    count: int
    entries: bytes


class _Thread(threading.local):
    """What a thread has of an index."""

    def __init__(self) -> None:
        # Held while the thread is in a call. A signal handler of that thread
        # finds it held.
        self.inside = threading.Lock()
        #: Whether such a handler has closed the index.
        self.has_closed = False


class _Session:
    """What the calls of a session have in common."""

    __slots__ = ("lock", "found", "count", "done", "number", "commit")

    def __init__(self) -> None:
        self.lock = threading.Lock()
        # (what the library writes to)
        self.found = ctypes.c_void_p()
        self.count = ctypes.c_size_t()
        self.done = ctypes.c_size_t()
        self.number = ctypes.c_uint64()
        #: The commit that was asked last; its number is 0 until it is made.
        self.commit: Optional[Call] = None


class Library:
    """An open index of the library, with the calls of a Program.

    Threads may share it. A call holds its session's lock, and what is done
    `alone` another one. So while a commit waits for the file other sessions
    go on; and to close takes all the locks.
    """

    def __init__(self, path: str, frames: int) -> None:
        it = library()
        assert it
        self._library = it
        self._make_locks()
        self._index = ctypes.c_void_p()
        self._why: Optional[Callable[[], GistError]] = None
        self._release = weakref.finalize(self, _let_go, it, self._index, path)
        self._release.atexit = False
        self.pid = os.getpid()
        end = End()
        told = it.gist_open(self._index, None, os.fsencode(path), frames, end)
        if told != OK:
            self._release.detach()
            raise fault_of(it, told, end)
        self.dimensions = it.gist_dimensions(self._index)
        suffix = "3" if self.dimensions == 3 else ""
        self._box = BOXES[self.dimensions]
        # (how an entry lies in memory)
        self._entry = f"Q{2 * self.dimensions}i"
        self._size = calcsize("=" + self._entry)
        self._search_call = getattr(it, "gist_search" + suffix)
        self._writes = {
            command: (getattr(it, name + suffix),
                      getattr(it, f"{name}_many{suffix}"), answer)
            for command, name, answer in (
                (b"INSERT", "gist_insert", b"inserted"),
                (b"DELETE", "gist_delete", b"deleted"))}
        _opened.add(self)

    @property
    def is_over(self) -> bool:
        """Whether it was closed."""
        return self._why is not None

    def alone(self, work: Callable[..., _Result], *arguments: object
              ) -> _Result:
        """Does work while nothing else is done alone.

        A signal handler that comes here while its own thread is within is
        refused with RuntimeError, as that of a Program is.
        """
        return self._within(self._lock, work, arguments)

    def shared(self, work: Callable[..., _Result], *arguments: object
               ) -> _Result:
        """Does work that asks calls of one session, which one thread uses."""
        return self._within(_NO_LOCK, work, arguments)

    def exchange(self, call: Call) -> bytes:
        """Makes the calls of these lines, and returns their answers."""
        return self.shared(self.ask, call)

    def ask(self, call: Call) -> bytes:
        """As exchange, for work that is done alone, or shared."""
        if call.answer:
            return call.answer
        words = call.lines.split(None, 2)
        its = self._sessions[int(words[0])]
        with its.lock:
            self.look()
            call.answer = self._answer(int(words[0]), its, words[1], call)
        return call.answer

    def find(self, hold: Any, query: str, box: Sequence[int]) -> Hits:
        """What a search finds in the transaction that has this hold."""
        kind = hold.kind
        try:
            sought = self._box(*kind.numbers_of(box))
        except TypeError:
            raise kind.no_box(box) from None
        told, answer = self.shared(self._find, hold, _QUERIES[query], sought)
        if told == OK:
            return Hits(len(answer) // self._size, answer, kind.box, True)
        fault = refusal(answer)
        if isinstance(fault, NoTransaction):
            hold.end()
        raise fault

    def settle(self) -> None:
        """Gives a commit that was broken off the answer that it had."""
        for session, its in self._sessions.items():
            if its.commit and its.number.value:
                its.commit.answer = _committed(session, its)

    def look(self) -> None:
        """Raises Ended once the index was closed."""
        if self._why:
            raise self._why()

    def close(self, _: bytes = b"") -> Optional[GistError]:
        """Closes the index, and returns its fault.

        In a signal handler within a call of the same thread the index is
        closed as the call ends, and the call raises Ended.
        """
        own = self._own
        if own.inside.locked():
            self._why = self._why or partial(Ended, 0, CUT_OFF)
            own.has_closed = True
            return None
        with own.inside:
            return self._close()

    def kill(self) -> None:
        """Closes the index."""
        self.close()

    def forget(self) -> None:
        """Frees what a process that was forked off has of it."""
        self._make_locks()
        if self._index:
            self._why = partial(Ended, 0, FORKED)
            self._free()

    def _make_locks(self) -> None:
        self._own = _Thread()
        self._lock = threading.Lock()
        self._sessions = {at: _Session() for at in range(1, _SESSIONS + 1)}

    def _within(self, lock: Any, work: Callable[..., _Result],
                arguments: Sequence[object]) -> _Result:
        own = self._own
        if own.inside.locked():
            raise RuntimeError(
                "a signal handler came within a call of the same index and "
                "thread; there it can only close the index")
        # (only `with` takes and releases a lock whatever a signal does)
        with own.inside:
            try:
                with lock:
                    self.look()
                    result = work(*arguments)
            finally:
                if own.has_closed:
                    self._close()
            if own.has_closed:
                self.look()
            return result

    def _close(self) -> Optional[GistError]:
        """Closes the index, once all calls of other threads have ended."""
        if not self._index:
            return None
        self._why = self._why or partial(Ended, 0, "the index was closed")
        with self._lock:
            return self._close_behind(list(self._sessions.values()))

    def _close_behind(self, sessions: List[_Session]
                      ) -> Optional[GistError]:
        """Closes the index, once the calls of these sessions have ended."""
        if not sessions:
            end = End()
            told = self._free(end)
            return None if told == OK else fault_of(self._library, told, end)
        with sessions[0].lock:
            return self._close_behind(sessions[1:])

    def _free(self, end: Optional[End] = None) -> int:
        """Closes the index, or frees what a process that was forked off
        has."""
        index, self._index = self._index, ctypes.c_void_p()
        self._release.detach()
        return self._library.gist_close(index, end) if index else OK

    def _answer(self, session: int, its: _Session, command: bytes,
                call: Call) -> bytes:
        """The answer to the lines of a call."""
        if command.decode() in _QUERIES:
            lines = call.lines.splitlines()
            answers = [self._search(session, its, line.split())
                       for line in lines]
            call.answers = answers
            return answers[0] if len(answers) == 1 else b"".join(answers)
        if command in self._writes:
            words = call.lines.split()
            del words[::len(words) // call.count]
            del words[::len(words) // call.count]
            return self._write(session, its, command, list(map(int, words)))
        it = self._library
        if command == b"COMMIT":
            return self._commit(session, its, call)
        if command == b"BEGIN":
            told, said = it.gist_begin(self._index, session), b"ok"
        else:
            told, said = it.gist_abort(self._index, session), b"aborted"
        return (b"%d %s\n" % (session, said) if told == OK
                else self._refused(session, told))

    def _commit(self, session: int, its: _Session, call: Call) -> bytes:
        if its.commit is not call:
            its.number.value = 0
            its.commit = call
        if not its.number.value:
            told = self._library.gist_commit(self._index, session, its.number)
            if told != OK:
                return self._refused(session, told)
        return _committed(session, its)

    def _write(self, session: int, its: _Session, command: bytes,
               numbers: List[int]) -> bytes:
        """Adds entries, or takes them away, up to the first refusal."""
        one, many, said = self._writes[command]
        size = 1 + 2 * self.dimensions
        line = b"%d %s\n" % (session, said)
        if len(numbers) == size:
            told = one(self._index, session, numbers[0],
                       self._box(*numbers[1:]))
            return line if told == OK else self._refused(session, told)
        count = len(numbers) // size
        entries = pack("=" + count * self._entry, *numbers)
        told = many(self._index, session, entries, count, its.done)
        answer = its.done.value * line
        return answer if told == OK else answer + self._refused(session, told)

    def _search(self, session: int, its: _Session, words: List[bytes]
                ) -> bytes:
        """The answer to a line that searches."""
        query, *corners = words[1:]
        told, entries = self._found(session, its, _QUERIES[query.decode()],
                                    self._box(*map(int, corners)))
        if told != OK:
            return b"%d refused %s\n" % (session, entries)
        count = len(entries) // self._size
        answer = Found(b"%d found %d\n" % (session, count))
        answer.count = count
        answer.entries = entries
        return answer

    def _find(self, hold: Any, query: int, sought: object
              ) -> Tuple[int, bytes]:
        """A status, with the entries that a search finds or its refusal."""
        if not hold.session:
            raise NoTransaction("no transaction")
        its = self._sessions[hold.session]
        with its.lock:
            self.look()
            return self._found(hold.session, its, query, sought)

    def _found(self, session: int, its: _Session, query: int, sought: object
               ) -> Tuple[int, bytes]:
        told = self._search_call(self._index, session, query, sought,
                                 its.found, its.count)
        if told != OK:
            return told, self._why_not(told)
        return told, ctypes.string_at(its.found, its.count.value * self._size)

    def _why_not(self, told: int) -> bytes:
        """What a refusal says: its number and its text."""
        if told >= ENDED:
            raise OSError(ctypes.get_errno(), os.strerror(ctypes.get_errno()))
        text = b"%d %s" % (told, self._library.gist_text(told))
        if told == BUSY:
            text += b" %d" % self._library.gist_busy(self._index)
        return text

    def _refused(self, session: int, told: int) -> bytes:
        """The line of a refusal."""
        return b"%d refused %s\n" % (session, self._why_not(told))


def _committed(session: int, its: _Session) -> bytes:
    """The answer to the last commit of a session."""
    return b"%d committed %d\n" % (session, its.number.value)


class _NoLock:
    """Nothing to hold."""

    def __enter__(self) -> None:
        pass

    def __exit__(self, *_: object) -> None:
        pass


_NO_LOCK = _NoLock()
_opened: "weakref.WeakSet[Library]" = weakref.WeakSet()


def _forget_all() -> None:
    for it in list(_opened):
        it.forget()


os.register_at_fork(after_in_child=_forget_all)


def _let_go(it: ctypes.CDLL, index: ctypes.c_void_p, path: str) -> None:
    """Closes an index that was forgotten."""
    if index:
        it.gist_close(index, None)
        warnings.warn(f"an index was forgotten, and not closed: {path!r}",
                      ResourceWarning)
