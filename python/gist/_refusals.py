"""What the index or its program answers instead of a result."""

import signal
from typing import ClassVar, Optional


class GistError(Exception):
    """What the index or its program answers instead of a result.

    Wrong arguments are ValueError or TypeError, and a program that can't be
    started is OSError, as elsewhere in Python.
    """


class Ended(GistError):
    """The program has ended, and with it whatever was open.

    What was answered as committed is in the file; open the index again.
    """

    def __init__(self, status: int, sentence: str) -> None:
        super().__init__(status, sentence)
        #: The program's status; of one that was killed, minus the signal.
        self.status = status
        #: What it wrote to standard error, often nothing; with status 0 why
        #: this client ended it.
        self.sentence = sentence

    def __str__(self) -> str:
        if self.status < 0:
            told = f"the program ended because {_signal_of(-self.status)}"
        elif self.status:
            told = ("the program ended because it failed, with status "
                    f"{self.status}")
        elif self.sentence:
            return self.sentence
        else:
            told = "the program ended though the index wasn't closed"
        return f"{told}: {self.sentence}" if self.sentence else told


class ProtocolError(GistError):
    """The program answered what no gist of this kind answers.

    It is ended then, since nothing would say to whom an answer belongs.
    """


class NoSession(GistError):
    """All eight sessions have a transaction."""


class Refused(GistError):
    """The index refused a call, for the reason that the class names.

    A call that was refused changes nothing, and its transaction stays open.
    """

    #: The refusal's number, as docs/SCRIPT.md has it.
    number: ClassVar[int] = 0
    #: What to do about it.
    advice: ClassVar[str] = ""

    def __init__(self, text: str, status: Optional[int] = None,
                 sentence: str = "", place: Optional[int] = None) -> None:
        super().__init__(text)
        #: The refusal's text, as docs/SCRIPT.md has it.
        self.text = text
        #: If the program ended with the refusal: its status, and what it
        #: wrote to standard error.
        self.status = status
        self.sentence = sentence
        #: Which entry of insert_many or delete_many was refused, from 0.
        self.place = place

    def __str__(self) -> str:
        told = self.text
        if self.place is not None:
            told += f" (entry {self.place}, counted from 0)"
        more = "; ".join(filter(None, (self.sentence, self.advice)))
        return f"{told}: {more}" if more else told


class NoTransaction(Refused):
    """The transaction has been committed or given up."""
    number = 1
    advice = "it has been committed or given up; begin another"


class InTransaction(Refused):
    """The session has a transaction already; this client asks for none."""
    number = 2
    advice = "the session has a transaction already"


class Present(Refused):
    """The transaction sees the entry that was to be inserted."""
    number = 3
    advice = "an entry with this row and box is there already"


class Absent(Refused):
    """The transaction doesn't see the entry that was to be deleted."""
    number = 4
    advice = "no entry has this row and just this box"


class Busy(Refused):
    """Another transaction wrote or searched what this call is about.

    The index never waits. Give this transaction up and begin it anew, as
    Index.retry does, or repeat the call once the other one has ended.
    """
    number = 5
    advice = ("another transaction wrote or searched this; give this one up "
              "and begin it anew, as Index.retry does")

    @property
    def session(self) -> int:
        """The session of the other transaction."""
        return int(self.text.rpartition(" ")[2])


class BadBox(Refused):
    """A box with x2 < x1 or y2 < y1, or of space with z2 < z1."""
    number = 6
    advice = "x2 < x1, y2 < y1 or z2 < z1; exchange the corners"


class PagesFull(Refused):
    """A node has to be split and the index has no page left."""
    number = 7
    advice = ("the index has no page left; copy it to another one with "
              "python -m gist copy OLD NEW, with --pages for a larger one")


class ClaimsFull(Refused):
    """Open transactions have written 512 entries in all."""
    number = 8
    advice = "at most 512 entries in all open transactions; commit earlier"


class PredicatesFull(Refused):
    """The transaction has made 16 different searches."""
    number = 9
    advice = "at most 16 different searches a transaction; begin another"


class Memory(Refused):
    """The system refused memory; the call may be repeated."""
    number = 10
    advice = "the system has none left; repeat the call"


class Device(Refused):
    """A read, write or sync of the file failed; InUse is another class."""
    number = 11
    advice = ("see to the file's device, then open the index again; a commit "
              "that was answered is there")


class InUse(Device):
    """Another process has the file open."""
    advice = "close it there, or open it with wait=SECONDS"


class Failed(Refused):
    """An earlier call of the file failed."""
    number = 12
    advice = "an earlier call of the file failed; open the index again"


class Damaged(Refused):
    """The file holds what no index wrote; the sentence says where."""
    number = 13
    advice = "restore a copy"


class NotFormatted(Refused):
    """The file holds no index."""
    number = 14
    advice = "gist.format lays one down in a file"


class BadSession(Refused):
    """A session outside 1 to 8; this client asks for none."""
    number = 15
    advice = "sessions are 1 to 8"


class CallOpen(Refused):
    """The session's last call isn't answered yet; never so here."""
    number = 16
    advice = "wait for its answer"


class TooSmall(Refused):
    """The file is shorter than its index, or than any."""
    number = 17
    advice = "it was cut, or is no index: restore a copy"


class BadParameter(Refused):
    """The index is of another kind of keys, or its numbers are wrong."""
    number = 18
    advice = "it is no index of this program"


class NoCall(Refused):
    """No call of the session is open; never so here."""
    number = 19
    advice = "make a call first"


class HistoryFull(Refused):
    """The numbers of commits or transactions are used up."""
    number = 20
    advice = "copy the entries to a fresh index"


class OldVersion(Refused):
    """The file holds an index of an older version of the format."""
    number = 21
    advice = "gist.migrate brings it into a new file"


_BY_NUMBER = {it.number: it for it in Refused.__subclasses__()}


def refusal(words: bytes, status: Optional[int] = None, sentence: str = "",
            place: Optional[int] = None) -> GistError:
    """The exception for what follows 'refused': a number and a text."""
    number, _, text = words.decode("ascii", "replace").partition(" ")
    if not number.isdigit():
        return ProtocolError(f"refused {number} {text}")
    kind = _BY_NUMBER.get(int(number), Refused)
    if kind is Device and "in use" in sentence:
        kind = InUse
    found = kind(text, status, sentence, place)
    if kind is Refused:
        # (one that came after this module)
        found.number = int(number)  # type: ignore[misc]
    return found


def _signal_of(number: int) -> str:
    """What a signal did to the program."""
    try:
        return f"it was killed by {signal.Signals(number).name}"
    except ValueError:
        return f"it was killed by signal {number}"
