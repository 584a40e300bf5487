"""The eight sessions of an open index, and which transaction has each."""

import threading
import time
import warnings
import weakref
from contextlib import suppress
from typing import Dict, Optional

from gist._entries import Kind
from gist._program import Call, Program
from gist._refusals import (GistError, InTransaction, NoSession,
                            ProtocolError, refusal)

#: How many transactions may be open at once.
SESSIONS = 8

# How long a thread waits for a session, in seconds, until it looks whether
# the program is still there.
_SLICE = 0.05


class Hold:
    """What a transaction has of its session, from before its BEGIN on."""

    def __init__(self, sessions: "Sessions") -> None:
        #: Those of its index; none once it has ended.
        self.sessions: Optional[Sessions] = sessions
        #: Which boxes its index has.
        self.kind = sessions.kind
        #: The session, 1 to 8; 0 before it has one, and once it has ended.
        self.session = 0
        #: The commit that was asked last.
        self.commit: Optional[Call] = None
        #: What can still end it. If that is gone, it is aborted.
        self.holder: Optional["weakref.ref[object]"] = None

    @property
    def number(self) -> Optional[int]:
        """The commit's number, once it is known to be made."""
        answer = self.commit.answer if self.commit else None
        words = (answer or b"").split()
        return int(words[2]) if words[1:2] == [b"committed"] else None

    def is_left(self) -> bool:
        """Whether it is open, and nobody holds it any more."""
        return bool(self.session) and not (self.holder and self.holder())

    def end(self) -> None:
        """Frees its session, as it has ended."""
        self.session = 0
        self.holder = None
        sessions, self.sessions = self.sessions, None
        if sessions:
            sessions.ring()


class Sessions:
    """The sessions of a program."""

    def __init__(self, program: Program, path: object, kind: Kind) -> None:
        self.program = program
        self.kind = kind
        self._path = path
        # (changed only by what the program does alone)
        self._holds: Dict[int, Hold] = {}
        # Released when a session may be free: it wakes a thread that waits.
        self._bell = threading.Lock()

    def begin(self, hold: Hold, holder: object,
              wait: Optional[float]) -> None:
        """Begins a transaction in a free session.

        If none is free this waits for one, so many seconds at most, or
        as long as it takes (None); then it raises NoSession.
        """
        end = None if wait is None else time.monotonic() + wait
        try:
            while not (self._free()
                       and self.program.alone(self._begin, hold, holder)):
                self.program.look()
                left = _SLICE
                if end is not None:
                    left = min(left, end - time.monotonic())
                if left <= 0:
                    raise NoSession("all eight sessions have a transaction")
                self._bell.acquire(timeout=left)
        except BaseException:
            # (nobody is given it, though a traceback may keep its holder)
            hold.holder = None
            raise
        if self._free():
            # (for another thread that waits)
            self.ring()

    def ring(self) -> None:
        """Wakes a thread that waits for a session."""
        with suppress(RuntimeError):
            # (it may be released already)
            self._bell.release()

    def _free(self) -> int:
        """A session that nobody holds; 0 if there is none."""
        for session in range(1, SESSIONS + 1):
            hold = self._holds.get(session)
            if hold is None or not hold.session or hold.is_left():
                return session
        return 0

    def _begin(self, hold: Hold, holder: object) -> bool:
        """Begins a transaction, unless all sessions are held."""
        for session, other in list(self._holds.items()):
            if other.is_left():
                self._ask(session, "ABORT")
                other.end()
        session = self._free()
        if not session:
            return False
        hold.holder = weakref.ref(holder, self._forgotten)
        hold.session = session
        self._holds[session] = hold
        fault = self._ask(session, "BEGIN")
        if isinstance(fault, InTransaction):
            self._ask(session, "ABORT")
            fault = self._ask(session, "BEGIN")
        if fault:
            hold.end()
            raise fault
        return True

    def _ask(self, session: int, command: str) -> Optional[GistError]:
        """Makes a call in a session, and returns its refusal."""
        line = self.program.ask(Call(f"{session} {command}\n".encode()))
        answer = line[:-1].split(b" ", 2)
        if answer[0] == b"%d" % session:
            if len(answer) == 3 and answer[1] == b"refused":
                return refusal(answer[2])
            if answer[1:] in ([b"ok"], [b"aborted"]):
                return None
        self.program.kill()
        return ProtocolError(f"{line!r} to {command} in session {session}")

    def _forgotten(self, _: object) -> None:
        """What held an open transaction is gone."""
        if not self.program.is_over:
            self.ring()
            warnings.warn(f"a transaction of {self._path!r} was forgotten, "
                          "and is given up", ResourceWarning)
