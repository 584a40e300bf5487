"""What the file of an index says of it, in its second sector."""

import errno
import os
import struct
from stat import S_ISDIR
from typing import Tuple

from gist._process import AnyPath

# Where a file has the numbers of its index, and how they lie there.
_NUMBERS_AT, _NUMBERS = 512, struct.Struct(">IHH")


def opened(path: AnyPath, flags: int) -> int:
    """Opens a file as the program will, which raises why that can't be done.
    """
    return os.open(path, flags | os.O_CLOEXEC | os.O_NONBLOCK | os.O_NOCTTY,
                   0o666)


def numbers_of(path: AnyPath, flags: int = os.O_RDONLY
               ) -> Tuple[int, int, int]:
    """The pages, entries a page and class of the index in a file."""
    file = opened(path, flags)
    try:
        if S_ISDIR(os.fstat(file).st_mode):
            raise IsADirectoryError(
                errno.EISDIR, os.strerror(errno.EISDIR), os.fspath(path))
        data = os.pread(file, _NUMBERS.size, _NUMBERS_AT)
    finally:
        os.close(file)
    return _NUMBERS.unpack(data.ljust(_NUMBERS.size, b"\0"))
