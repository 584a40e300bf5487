"""What is done with the file of an index as a whole."""

import errno
import operator
import os
import time
from contextlib import contextmanager, suppress
from ctypes import CDLL
from typing import Iterator, NamedTuple, Optional

from gist._entries import kind_of
from gist._index import Index
from gist._libgist import format_file, library, verify_file
from gist._numbers import numbers_of, opened
from gist._process import AnyPath, lines_of, words_of
from gist._refusals import InUse, ProtocolError

MIN_PAGES, MAX_PAGES = 8, 65536
MIN_FANOUT, MAX_FANOUT = 4, 100
MIN_FRAMES, MAX_FRAMES = 16, 4096

# How long open waits until it tries again, in seconds.
_PAUSE = 0.05


class Report(NamedTuple):
    """What `verify` found in an index that is sound."""

    #: The last commit's number.
    commits: int
    #: How many entries it has.
    entries: int
    #: How many of its pages are in use.
    used: int


class Migrated(NamedTuple):
    """What `migrate` brought into the new file."""

    #: The last commit's number.
    commits: int
    #: How many pages are in use.
    used: int


class Stat(NamedTuple):
    """An index in numbers, as `stat` returns them."""

    #: How many pages it may have, and how many entries a page.
    pages: int
    fanout: int
    #: The class of its keys: 1 for boxes of the plane, 3 for boxes of space.
    kind: int
    #: How many pages are in use; they are never given back.
    used: int
    #: The last commit's number.
    commits: int
    #: How many entries it has.
    entries: int
    #: Which part of its pages is in use, from 0 to 1.
    full: float


def open(path: AnyPath, frames: Optional[int] = None,
         program: Optional[AnyPath] = None, wait: float = 0.0,
         embedded: Optional[bool] = None) -> Index:
    """Opens the index in a file; what a crash cut off is undone first.

    frames, 16 to 4096, is how many pages of 4,096 bytes are held in memory:
    all pages of the index, if that many may be, unless a number is given.
    wait is for how many seconds this tries again while another process has
    the file open; then it raises InUse.

    With embedded this process has the index itself, by the library in
    process (docs/LIBRARY.md): the environment variable GIST_LIBRARY names
    it, where it isn't installed; an empty one stands for none. Without, the
    index is a process of its own: program is the path of gist, where it
    isn't the one that the variable GIST names, or the file gist beside this
    package's folder. By default the library has the index, where there is
    one and no program is given.

    Raises OSError, as FileNotFoundError, for a file that can't be opened or a
    library that isn't installed, and OldVersion, NotFormatted, Damaged,
    TooSmall or BadParameter for what it holds.
    """
    if embedded is None:
        embedded = program is None and library() is not None
    if not embedded:
        words_of(program)
    elif library() is None:
        raise OSError(errno.ENOENT, "the library in process isn't installed, "
                      "and GIST_LIBRARY doesn't name it", "libgist.so")
    pages, _, _ = numbers_of(path, os.O_RDWR)
    if frames is None:
        frames = min(max(pages, MIN_FRAMES), MAX_FRAMES)
    _check("frames", frames, MIN_FRAMES, MAX_FRAMES)
    end = time.monotonic() + wait
    while True:
        try:
            return Index(path, frames, program, embedded)
        except InUse:
            if time.monotonic() >= end:
                raise
        time.sleep(_PAUSE)


def format(path: AnyPath, pages: int, fanout: int = 100,
           program: Optional[AnyPath] = None,
           overwrite: bool = False, dimensions: int = 2) -> None:
    """Lays a new index down in a file, which is made or is empty.

    pages, 8 to 65536, is how many pages it may have, and fanout, 4 to 100,
    how many entries a page. Its boxes are those of the plane, or with
    dimensions=3 those of space. Raises FileExistsError for a file that isn't
    empty, unless overwrite is given: what the file held is lost then.
    """
    _check("pages", pages, MIN_PAGES, MAX_PAGES)
    _check("fanout", fanout, MIN_FANOUT, MAX_FANOUT)
    kind = kind_of(dimensions)
    it = _library_alone(program)
    if it:
        with _made(path, overwrite):
            format_file(it, os.fspath(path), pages, fanout, dimensions)
        return
    # (a program that has no boxes of space doesn't know the word)
    chosen = ["--class", f"{kind.number:d}"] if kind.number > 1 else []
    words = words_of(program, "format", *chosen, "--", os.fspath(path),
                     f"{pages:d}", f"{fanout:d}")
    with _made(path, overwrite):
        line = "".join(lines_of(words))
        if not line.startswith("formatted "):
            raise ProtocolError(f"{line!r} as the index was formatted")


def migrate(old: AnyPath, new: AnyPath, program: Optional[AnyPath] = None,
            overwrite: bool = False) -> Migrated:
    """Brings an index of the format's first version into a new file.

    The file old is only read, so it has to be kept until the new one is
    verified. new is made or is empty; FileExistsError is raised for a file
    that isn't, unless overwrite is given: what the file held is lost then.
    Neither may be open. Numbers of commits go on; what open transactions
    have written is undone as the new index is opened.

    Raises NotFormatted for a file without such an index, and what verify
    raises.
    """
    words = words_of(program, "migrate", "--", os.fspath(old),
                     os.fspath(new))
    numbers_of(old)
    with _made(new, overwrite):
        line = "".join(lines_of(words))
        told = line.split(" ")
        if told[:1] != ["migrated"] or told[1::2] != ["commits", "used"]:
            raise ProtocolError(f"{line!r} as the index was migrated")
    return Migrated(*map(int, told[2::2]))


def dump(path: AnyPath, program: Optional[AnyPath] = None) -> Iterator[str]:
    """The tree of the index in a file, line by line, as docs/SCRIPT.md says.

    The index must not be open; what a crash cut off is undone first.
    """
    words = words_of(program, "dump", "--", os.fspath(path))
    numbers_of(path, os.O_RDWR)
    return lines_of(words)


def verify(path: AnyPath, program: Optional[AnyPath] = None) -> Report:
    """Tests the index in a file, in a copy in memory, and counts.

    The index must not be open, and its file isn't changed. Raises Damaged
    for one that isn't sound, and what open raises.
    """
    it = _library_alone(program)
    if it:
        numbers_of(path)
        return Report(*verify_file(it, os.fspath(path)))
    words = words_of(program, "verify", "--", os.fspath(path))
    numbers_of(path)
    line = "".join(lines_of(words))
    told = line.split(" ")
    if told[:1] != ["ok"] or told[1::2] != ["commits", "entries", "used"]:
        raise ProtocolError(f"{line!r} as the index was verified")
    return Report(*map(int, told[2::2]))


def stat(path: AnyPath, program: Optional[AnyPath] = None) -> Stat:
    """The index in a file in numbers; it is verified, as verify does."""
    commits, entries, used = verify(path, program)
    pages, fanout, kind = numbers_of(path)
    return Stat(pages, fanout, kind, used, commits, entries, used / pages)


def _library_alone(program: Optional[AnyPath]) -> Optional[CDLL]:
    """The library, where no program is given, and none is installed."""
    if program is None:
        try:
            words_of(None)
        except FileNotFoundError:
            return library()
    return None


def _check(name: str, number: int, least: int, most: int) -> None:
    if not least <= operator.index(number) <= most:
        raise ValueError(f"{name} is {number}: an integer from {least} to "
                         f"{most}")


@contextmanager
def _made(path: AnyPath, overwrite: bool) -> Iterator[None]:
    """Makes a file if none exists; it goes again if what follows fails."""
    is_made = _make(path, overwrite)
    try:
        yield
    except BaseException as fault:
        # (half an index would be refused as a file that isn't empty; one that
        # is in use may be another's by now, unless nothing was written)
        if is_made:
            with suppress(FileNotFoundError):
                if not (isinstance(fault, InUse) and os.stat(path).st_size):
                    os.unlink(path)
        raise


def _make(path: AnyPath, overwrite: bool) -> bool:
    """Makes a file if none exists, and returns whether it did."""
    try:
        os.close(opened(path, os.O_RDWR | os.O_CREAT | os.O_EXCL))
        return True
    except FileExistsError:
        file = opened(path, os.O_RDWR)
    size = os.fstat(file).st_size
    os.close(file)
    if size and not overwrite:
        raise FileExistsError(
            errno.EEXIST, "the file isn't empty; with overwrite=True it "
            "becomes an index, and what it holds is lost", os.fspath(path))
    return False
