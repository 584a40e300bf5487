"""The program gist: how it is found and started, and why it ended."""

import os
import subprocess
from pathlib import Path
from typing import BinaryIO, Iterator, List, Optional, Union

from gist._refusals import Ended, GistError, refusal

AnyPath = Union[str, "os.PathLike[str]"]


def words_of(program: Optional[AnyPath], *words: str) -> List[str]:
    """The program's path, with these arguments after it.

    It is the one that is given, or else named by the environment variable
    GIST, or the file gist beside the folder that this package is in. PATH
    isn't searched: other programs have that name.
    """
    name = os.fspath(program or os.environ.get("GIST") or "")
    if not name:
        beside = Path(__file__).resolve().parents[2] / "gist"
        if not (beside.is_file() and os.access(beside, os.X_OK)):
            raise FileNotFoundError(
                "no gist program: name one by the environment variable GIST "
                "or by the argument program")
        name = str(beside)
    return [os.path.abspath(name), *words]


def lines_of(words: List[str]) -> Iterator[str]:
    """The lines that the program prints; raises its fault at their end."""
    with faults_file() as faults:
        with start(words, subprocess.DEVNULL, faults, -1) as process:
            assert process.stdout
            last = b""
            try:
                for last in process.stdout:
                    if not last.startswith(b"refused "):
                        yield last.decode().rstrip("\n")
            except GeneratorExit:
                process.terminate()
                raise
            # (if SIGCHLD is ignored the status is lost, and is 0 here)
            if process.wait() != 0 or last.startswith(b"refused "):
                raise fault_of(process.returncode, last, sentence_of(faults))


def start(words: List[str], stdin: int, faults: BinaryIO,
          bufsize: int) -> "subprocess.Popen[bytes]":
    """Starts the program; its standard error goes to the file of faults.

    It has its own session, so that a Ctrl-C meant for this process
    doesn't end it in the middle of a transaction. If it is the launcher of
    a repository in which nothing is built, it says so and builds nothing.
    """
    return subprocess.Popen(words, stdin=stdin, stdout=subprocess.PIPE,
                            stderr=faults, bufsize=bufsize,
                            start_new_session=True,
                            env={**os.environ, "GIST_NO_BUILD": "1"})


def faults_file() -> BinaryIO:
    """A file in memory for standard error: it never fills, as a pipe may."""
    return os.fdopen(os.memfd_create("gist"), "rb", buffering=0)


def sentence_of(faults: BinaryIO) -> str:
    """What the program wrote to standard error, without its name."""
    text = os.pread(faults.fileno(), 4096, 0).decode("utf-8", "replace")
    sentence = text.strip()
    if sentence.startswith("gist: "):
        sentence = sentence[len("gist: "):]
    return sentence


def fault_of(status: int, printed: bytes, sentence: str) -> GistError:
    """Why the program ended, by its status and the last that it printed."""
    last = printed.rstrip(b"\n").rpartition(b"\n")[2]
    if last.startswith(b"refused "):
        return refusal(last[len(b"refused "):], status, sentence)
    return Ended(status, sentence)
