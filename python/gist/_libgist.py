"""The library libgist: where it is, how ctypes calls it, and what it does
with a file that isn't open."""

import ctypes
import errno
import os
from functools import lru_cache
from pathlib import Path
from typing import Optional, Tuple

from gist._refusals import GistError, refusal

# The version that the library has to have.
_VERSION = b"0.1.0"
# What gist_client.h says: flags, and statuses.
_OVERWRITE, _SPACE = 1, 2
OK, BUSY, DEVICE, ENDED = 0, 5, 11, 32


class End(ctypes.Structure):
    _fields_ = [("status", ctypes.c_int), ("sentence", ctypes.c_char * 1024)]


class _Counts(ctypes.Structure):
    _fields_ = [("commits", ctypes.c_uint64), ("entries", ctypes.c_uint64),
                ("used", ctypes.c_uint32)]


def _box(count: int) -> type:
    return type(f"_Box{count}", (ctypes.Structure,),
                {"_fields_": [(f"c{at}", ctypes.c_int32)
                              for at in range(count)]})


BOXES = {2: _box(4), 3: _box(6)}


def library() -> Optional[ctypes.CDLL]:
    """The library, where it is installed.

    The environment variable GIST_LIBRARY names it; where that is empty,
    there is none. Else it is the file libgist.so in this package's folder,
    or what the system has under that name.
    """
    name = os.environ.get("GIST_LIBRARY")
    if name is not None:
        return _loaded(name) if name else None
    beside = Path(__file__).resolve().parent / "libgist.so"
    for name in (str(beside), "libgist.so.0"):
        try:
            return _loaded(name)
        except OSError:
            pass
    return None


@lru_cache(maxsize=None)
def _loaded(name: str) -> ctypes.CDLL:
    """The library of this name; OSError where it is no such library."""
    it = ctypes.CDLL(name, use_errno=True)
    try:
        it.gist_version.restype = it.gist_text.restype = ctypes.c_char_p
        version = it.gist_version()
        _set_types(it)
    except AttributeError:
        version = b"none"
    if version != _VERSION:
        raise OSError(errno.ELIBBAD, "another library than gist's of version "
                      + _VERSION.decode(), name)
    return it


def _set_types(it: ctypes.CDLL) -> None:
    """Says of each call which arguments it takes."""
    handle, number = ctypes.c_void_p, ctypes.c_uint
    out, size = ctypes.POINTER(ctypes.c_void_p), ctypes.POINTER(ctypes.c_size_t)
    path, end = ctypes.c_char_p, ctypes.POINTER(End)
    it.gist_open.argtypes = [out, path, path, number, end]
    it.gist_format.argtypes = [path, path, number, number, number, end]
    it.gist_verify.argtypes = [path, path, ctypes.POINTER(_Counts), end]
    it.gist_close.argtypes = [handle, end]
    it.gist_busy.argtypes = it.gist_dimensions.argtypes = [handle]
    it.gist_begin.argtypes = it.gist_abort.argtypes = [handle, number]
    it.gist_commit.argtypes = [handle, number, ctypes.POINTER(ctypes.c_uint64)]
    for suffix, box in (("", BOXES[2]), ("3", BOXES[3])):
        for name in ("gist_insert", "gist_delete"):
            getattr(it, name + suffix).argtypes = [handle, number,
                                                   ctypes.c_uint64, box]
            getattr(it, f"{name}_many{suffix}").argtypes = [
                handle, number, ctypes.c_char_p, ctypes.c_size_t, size]
        getattr(it, "gist_search" + suffix).argtypes = [
            handle, number, ctypes.c_int, box, out, size]


def format_file(it: ctypes.CDLL, path: str, pages: int, fanout: int,
                dimensions: int) -> None:
    """Lays a new index down in a file, whatever that holds."""
    end = End()
    flags = _OVERWRITE | (_SPACE if dimensions == 3 else 0)
    told = it.gist_format(None, os.fsencode(path), pages, fanout, flags, end)
    if told != OK:
        raise fault_of(it, told, end)


def verify_file(it: ctypes.CDLL, path: str) -> Tuple[int, int, int]:
    """Tests the index in a file: its last commit, its entries, and how many
    pages are in use."""
    end, found = End(), _Counts()
    told = it.gist_verify(None, os.fsencode(path), found, end)
    if told != OK:
        raise fault_of(it, told, end)
    return found.commits, found.entries, found.used


def fault_of(it: ctypes.CDLL, told: int, end: End) -> GistError:
    """What a status means, as an exception."""
    sentence = end.sentence.decode("utf-8", "replace")
    if told >= ENDED:
        raise OSError(ctypes.get_errno(), os.strerror(ctypes.get_errno()))
    # (the others say the same as their exceptions)
    return refusal(b"%d %s" % (told, it.gist_text(told)), end.status,
                   sentence if told == DEVICE else "")
