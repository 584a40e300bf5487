"""Copies what is live in an index into a new one."""

import errno
import os
import shutil
import tempfile
from pathlib import Path
from typing import Callable, Optional

from gist._entries import KINDS
from gist._files import MAX_PAGES, dump, format, open, stat, verify
from gist._process import AnyPath
from gist._refusals import GistError, PagesFull
from gist._tree import live_entries


def copy(old: AnyPath, new: AnyPath, pages: Optional[int] = None,
         progress: Optional[Callable[[int], object]] = None,
         program: Optional[AnyPath] = None) -> int:
    """Copies the live entries of one index into a new one; returns how many.

    Neither index may be open. The file new must not exist, or be empty. It
    exists only once the copy is whole: until then a file beside it, which
    has its name and some letters more, is written. pages is how many pages
    the new index may have, and else what pages_for says. progress is called
    after each commit with how many entries are copied so far.
    """
    to = Path(os.fspath(new))
    _refuse_content(to)
    of = stat(old, program)
    if pages is None:
        pages = pages_for(of.pages, of.entries, of.fanout)
    handle, name = tempfile.mkstemp(prefix=f"{to.name}.", dir=to.parent)
    os.close(handle)
    try:
        format(name, pages, of.fanout, program,
               dimensions=KINDS[of.kind].dimensions)
        with open(name, program=program) as index:
            count = index.load(live_entries(dump(old, program)), progress)
        if verify(name, program).entries != count:
            raise GistError("the copy has other entries than were copied")
        shutil.copymode(old, name)
        _refuse_content(to)
        os.replace(name, to)
    except BaseException as fault:
        Path(name).unlink(missing_ok=True)
        if isinstance(fault, PagesFull):
            raise GistError(f"{pages} pages are too few for {of.entries} "
                            "entries; nothing was copied") from None
        raise
    _sync(to.parent)
    return count


def pages_for(pages: int, entries: int, fanout: int) -> int:
    """How many pages a copy gets: as many as the old index has, but at least
    twice what its entries need with leaves that are half full."""
    leaves = 2 * entries // fanout + 1
    needed = leaves + 4 * leaves // fanout + 2
    return min(max(pages, 2 * needed), MAX_PAGES)


def _refuse_content(path: Path) -> None:
    """Raises FileExistsError if the file holds anything."""
    if path.is_dir() or path.exists() and path.stat().st_size > 0:
        raise FileExistsError(errno.EEXIST, "there is something in it already",
                              str(path))


def _sync(folder: Path) -> None:
    """Makes the names in a folder durable."""
    handle = os.open(folder, os.O_RDONLY)
    try:
        os.fsync(handle)
    finally:
        os.close(handle)
