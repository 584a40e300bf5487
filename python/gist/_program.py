"""A running program, whose lines are written and whose answers are read.

An exception out of a signal handler, as KeyboardInterrupt, may leave a call
at any moment. So a call is remembered from before its first line is written
until its answer is kept. What it left unread is read before the next one.
"""

import os
import signal
import subprocess
import threading
import warnings
import weakref
from contextlib import suppress
from functools import partial
from select import PIPE_BUF
from typing import BinaryIO, Callable, List, Optional, Tuple, TypeVar

from gist._process import (fault_of, faults_file, sentence_of, start)
from gist._refusals import Ended, GistError, ProtocolError

# So many calls are written before their answers are read. The answer to an
# insert or a delete has at most 28 bytes, so these fit in 4,096 bytes, the
# smallest pipe that Linux makes: the program never waits for this process to
# read, so it always reads on, and a write to it always ends.
AHEAD = 100

# And so many searches: the lines of these go into a pipe as a whole, so that
# writing them ends, though the program may wait for this process to read.
SEARCHES = 16

_READ = 1 << 16
# The first of the sessions that no index has. A call in one of them shows, by
# its answer, that all calls before it have been answered.
_MARK = 10 ** 18
# At least the bytes of its answer.
_TAIL = 128

_Result = TypeVar("_Result")


class Call:
    """Lines that make so many calls, and what is known of their answers.

    More than one call may only be inserts and deletes, at most AHEAD; or
    searches, at most SEARCHES.
    """

    __slots__ = ("lines", "count", "is_search", "heads", "head", "answer",
                 "answers")

    def __init__(self, lines: bytes, count: int = 1,
                 is_search: bool = False) -> None:
        self.lines = lines
        self.count = count
        #: Whether they are searches, whose answers have many lines.
        self.is_search = is_search
        #: Where in all answers the answer of each search begins.
        self.heads: List[int] = []
        #: The front of the answers, and zeros. A read puts it here itself, so
        #: that it is kept if the read is the last that is done.
        self.head = bytearray(64)
        #: All answers; of a call that was broken off the first line, or
        #: nothing if it never reached the program.
        self.answer: Optional[bytes] = None
        #: The answers one by one, where the library in process gave them.
        self.answers: List[bytes] = []


class Program:
    """A running `gist run`.

    One lock makes a whole of each call, so threads may share it. What is
    done in the lock is done by `alone`.
    """

    def __init__(self, words: List[str]) -> None:
        _reap_left()
        self._make_locks()
        self._asked: Optional[Call] = None
        self._mark = _MARK
        self._rest = bytearray(_READ)
        self._is_ending = False
        self._why: Optional[Callable[[], GistError]] = None
        self._faults = faults_file()
        try:
            self._process = start(words, subprocess.PIPE, self._faults, 0)
        except BaseException:
            self._faults.close()
            raise
        assert self._process.stdin and self._process.stdout
        self._stdin, self._stdout = self._process.stdin, self._process.stdout
        self._to, self._from = self._stdin.fileno(), self._stdout.fileno()
        self.pid = self._process.pid
        self._release = weakref.finalize(self, _let_go, self._process,
                                         self._faults)
        self._release.atexit = False
        _running.add(self)

    @property
    def is_over(self) -> bool:
        """Whether its end has been noticed."""
        return self._why is not None

    def alone(self, work: Callable[..., _Result], *arguments: object
              ) -> _Result:
        """Does work while nothing else is done with the program.

        A signal handler that comes here while its own thread is within is
        refused with RuntimeError: it would wait for ever.
        """
        self._refuse_handlers()
        # (only `with` takes and releases a lock whatever a signal does)
        with self._lock:
            with self._inside:
                if self._is_ending:
                    raise self._reap()
                try:
                    result = work(*arguments)
                finally:
                    if self._is_ending:
                        self._reap()
                if self._why:
                    # (closed by a signal handler, as the answer came)
                    raise self._why()
                return result

    def shared(self, work: Callable[..., _Result], *arguments: object
               ) -> _Result:
        """Does work that asks calls of one session, which one thread uses."""
        return self.alone(work, *arguments)

    def exchange(self, call: Call) -> bytes:
        """Writes the lines of a call, and returns all answers."""
        return self.alone(self.ask, call)

    def ask(self, call: Call) -> bytes:
        """As exchange, for work that is done alone."""
        self._settle()
        if call.answer:
            # (broken off, and answered nevertheless)
            return call.answer
        call.head[:] = bytes(len(call.head))
        call.answer = None
        self._asked = call
        try:
            self._write(call.lines)
            call.answer = self._read(call)
        except (EOFError, BrokenPipeError):
            raise self._reap(bytes(call.head).rstrip(b"\0")) from None
        self._asked = None
        return call.answer

    def settle(self) -> None:
        """Reads what a call that was broken off has left unread."""
        self.alone(self._settle)

    def look(self) -> None:
        """Raises Ended if the program has ended, noticed or not."""
        self._refuse_handlers()
        if self._why or self._process.poll() is not None:
            raise self.alone(self._reap)

    def close(self, printed: bytes = b"") -> Optional[GistError]:
        """Ends the script, waits for the program and returns its fault.

        What it printed last is given if that was read already. In a
        signal handler within a call of the same thread the program is ended
        at once, and the call raises Ended.
        """
        with self._lock:
            if self._inside.locked():
                self._cut_off()
                return None
            with self._inside:
                if self._why:
                    self._reap()
                    return None
                if not self._is_ending:
                    with suppress(GistError):
                        # (a commit that was broken off is known then)
                        self._settle()
                end = self._reap(printed)
                if not isinstance(end, Ended) or end.status:
                    return end
                self._why = partial(Ended, 0, "the index was closed")
                return None

    def kill(self) -> None:
        """Ends the program at once."""
        with self._lock:
            if not self._why:
                self._kill()
                self._reap()

    def forget(self) -> None:
        """Lets go of the program in a process that was forked off.

        Its pipes would else stay open there, and the program wait for more.
        """
        self._make_locks()
        self._release.detach()
        if not self._why:
            self._why = partial(Ended, 0, FORKED)
            self._is_ending = True
            self._process.returncode = 0
            self._close_pipes()

    def _make_locks(self) -> None:
        # A thread takes both. A signal handler of the same thread gets the
        # first one too, and finds the second one taken.
        self._lock = threading.RLock()
        self._inside = threading.Lock()

    def _refuse_handlers(self) -> None:
        """Raises RuntimeError in a signal handler within a call."""
        is_mine = self._lock._is_owned()  # type: ignore[attr-defined]
        if is_mine and self._inside.locked():
            raise RuntimeError(
                "a signal handler came within a call of the same index and "
                "thread; there it can only close the index")

    def _write(self, lines: bytes) -> None:
        """Writes lines, in pieces that a pipe takes whole or not at all."""
        start = 0
        while start < len(lines):
            end = start + PIPE_BUF
            if end < len(lines):
                end = lines.rindex(b"\n", start, end) + 1
            os.write(self._to, lines[start:end])
            start = end

    def _some(self, call: Call) -> bytes:
        """Some more of what the program printed, once a call was asked."""
        have = len(call.head.rstrip(b"\0"))
        if have == len(call.head):
            data = os.read(self._from, _READ)
        else:
            room = memoryview(call.head)[have:]
            size = os.readv(self._from, [room, self._rest])
            data = (bytes(room[:size])
                    + self._rest[:max(size - len(room), 0)])
        if not data:
            raise EOFError
        return data

    def _read(self, call: Call) -> bytes:
        """Reads the answers of a call, and nothing after them."""
        if call.is_search:
            return self._read_found(call)
        data = self._some(call)
        while b"\n" not in data:
            data += self._some(call)
        lines = data.count(b"\n")
        wanted = call.count + found_in(data[:64].split(b"\n", 1)[0])
        parts = [data]
        while lines < wanted or not data.endswith(b"\n"):
            data = self._some(call)
            parts.append(data)
            lines += data.count(b"\n")
        if lines > wanted:
            raise self._senseless(f"{lines} lines of answers, not {wanted}")
        return parts[0] if len(parts) == 1 else b"".join(parts)

    def _read_found(self, call: Call) -> bytes:
        """Reads the answers of searches: each says how many lines it has."""
        parts: List[bytes] = []
        rest, behind, before = b"", 0, 0
        found = b"\n" + call.lines.partition(b" ")[0] + b" found "
        while len(call.heads) < call.count or behind or rest:
            read = rest + self._some(call)
            lines = read[:read.rfind(b"\n") + 1]
            rest = read[len(lines):]
            at = 0
            while at < len(lines):
                if behind:
                    at, behind = _behind(lines, at, behind, found)
                    continue
                if len(call.heads) == call.count:
                    raise self._senseless("more answers than calls")
                call.heads.append(before + at)
                end = lines.index(b"\n", at)
                behind = found_in(lines[at:end])
                at = end + 1
            before += len(lines)
            parts.append(lines)
        return b"".join(parts)

    def _senseless(self, why: str) -> ProtocolError:
        """Ends a program that answered what makes no sense."""
        self._kill()
        self._reap()
        return ProtocolError(why)

    def _settle(self) -> None:
        """Reads what a call that was broken off has left unread.

        That is all in front of the answer to a mark, a call that is refused
        under a number of its own.
        """
        call = self._asked
        if call is None:
            return
        self._mark += 1
        mark = b"%d " % self._mark
        try:
            os.write(self._to, mark + b"ABORT\n")
            last = bytes(call.head).rstrip(b"\0")
            # (it may follow a line of which the end was lost)
            while mark + b"refused " not in _last_line(last):
                last = (last + self._some(call))[-_TAIL:]
        except (EOFError, BrokenPipeError):
            raise self._reap() from None
        if not call.answer:
            first, end, _ = bytes(call.head).partition(b"\n")
            is_mark = len(first.partition(b" ")[0]) >= len(str(_MARK))
            call.answer = b"" if is_mark else first + end
        self._asked = None

    def _cut_off(self) -> None:
        """Ends the program under a call, which then finds why."""
        if not self._why:
            self._why = partial(Ended, 0, CUT_OFF)
            self._is_ending = True
            self._kill()
            self._await()

    def _kill(self) -> None:
        # (a launcher has processes below it)
        if self._process.returncode is None:
            with suppress(ProcessLookupError):
                os.killpg(self.pid, signal.SIGKILL)

    def _await(self) -> None:
        """Waits for the program's end, and leaves it to be reaped.

        Popen.wait holds a lock meanwhile, for which a signal handler of the
        same thread would wait for ever.
        """
        if self._process.returncode is None:
            with suppress(ChildProcessError):
                os.waitid(os.P_PID, self.pid, os.WEXITED | os.WNOWAIT)

    def _reap(self, printed: bytes = b"") -> GistError:
        """Waits for the program's end, and says why, to later calls too."""
        self._is_ending = True
        if not self._why:
            self._stdin.close()
            while True:
                data = os.read(self._from, _READ)
                if not data:
                    break
                printed = (printed + data)[-_READ:]
        self._await()
        status = self._process.wait()
        if not self._why:
            self._why = partial(fault_of, status, printed,
                                sentence_of(self._faults))
        self._close_pipes()
        return self._why()

    def _close_pipes(self) -> None:
        self._stdin.close()
        self._stdout.close()
        self._faults.close()
        self._release.detach()


#: Why a call was broken off, or can't be made.
CUT_OFF = ("the index was closed by a signal handler within a call; whether "
            "that call was done isn't known")
FORKED = ("the index was opened before a fork, and can be used only by the "
           "process that opened it")


def found_in(line: bytes) -> int:
    """How many lines follow on the first one of an answer."""
    words = line.split(b" ")
    is_found = len(words) == 3 and words[1] == b"found" and words[2].isdigit()
    return int(words[2]) if is_found else 0


def _behind(lines: bytes, at: int, count: int, found: bytes
            ) -> Tuple[int, int]:
    """Where so many lines end, and how many of them are yet to come.

    Mostly they end in front of an answer that begins with found; so they are
    counted up to there, and looked at one by one only if that fails.
    """
    end = lines.find(found, at) + 1 or len(lines)
    there = lines.count(b"\n", at, end)
    if there <= count:
        return end, count - there
    for _ in range(count):
        at = lines.index(b"\n", at) + 1
    return at, 0


def _last_line(data: bytes) -> bytes:
    """The last line of what was printed; nothing if it hasn't ended."""
    return data[data.rfind(b"\n", 0, -1) + 1:] if data[-1:] == b"\n" else b""


_running: "weakref.WeakSet[Program]" = weakref.WeakSet()


def _forget_all() -> None:
    for program in list(_running):
        program.forget()


os.register_at_fork(after_in_child=_forget_all)

# Programs of forgotten indexes, which end once their pipes are closed.
_left: "List[subprocess.Popen[bytes]]" = []


def _let_go(process: "subprocess.Popen[bytes]", faults: BinaryIO) -> None:
    """Closes the pipes of a program whose index was forgotten."""
    assert process.stdin and process.stdout
    for file in (process.stdin, process.stdout, faults):
        file.close()
    _left.append(process)
    _reap_left()
    *_, path = process.args  # type: ignore[misc]
    warnings.warn(f"an index was forgotten, and not closed: {path!r}",
                  ResourceWarning)


def _reap_left() -> None:
    _left[:] = [it for it in _left if it.poll() is None]
