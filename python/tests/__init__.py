"""Tests of the client, over the built program: GIST names it, or it is the
file gist at the repository's top. The library in process is left out, also
where one is installed."""

import os
import stat
import subprocess
import sys
import tempfile
import unittest
from pathlib import Path
from typing import Iterator, List, Tuple

import gist
from gist._process import words_of

os.environ["GIST_LIBRARY"] = os.environ.get("GIST_TESTED_LIBRARY", "")
REPOSITORY = Path(__file__).resolve().parents[2]
#: The program's path.
PROGRAM = words_of(None)[0]
PLANE = (gist.MIN_CORNER, gist.MIN_CORNER, gist.MAX_CORNER, gist.MAX_CORNER)

# A program that is gist under limits of the system.
LIMITED = """#!{python}
import os, resource, signal, sys
signal.signal(signal.SIGXFSZ, signal.SIG_IGN)
resource.setrlimit(resource.{limit}, ({most}, {most}))
os.execv({program!r}, [{program!r}] + sys.argv[1:])
"""


def box_of(row: int) -> gist.Box:
    """A different box for each row."""
    return gist.Box(10 * row, -row, 10 * row + 5, row)


def entries(start: int, end: int) -> List[Tuple[int, gist.Box]]:
    """The entries of these rows."""
    return [(row, box_of(row)) for row in range(start, end)]


def descriptors() -> int:
    """How many descriptors this process has open."""
    return len(os.listdir("/proc/self/fd"))


class Case(unittest.TestCase):
    """Has a separate folder, and leaves no process and no descriptor."""

    def setUp(self) -> None:
        folder = tempfile.TemporaryDirectory(prefix="gist-")
        self.addCleanup(folder.cleanup)
        self.addCleanup(self.leave_nothing, descriptors())
        self.folder = Path(folder.name)
        self.path = self.folder / "places.gist"

    def leave_nothing(self, before: int) -> None:
        self.assertEqual(descriptors(), before)
        with self.assertRaises(ChildProcessError):
            os.waitpid(-1, os.WNOHANG)

    def new(self, pages: int = 512, fanout: int = 16) -> None:
        """Makes a new index."""
        gist.format(self.path, pages, fanout)

    def run_python(self, lines: str, *words: object,
                   timeout: float = 20) -> str:
        """Runs lines in a separate Python, and returns what it printed.

        It is killed after so many seconds, and the test fails.
        """
        run = subprocess.run(
            [sys.executable, "-c", lines, *map(str, words)],
            stdout=subprocess.PIPE, timeout=timeout, cwd=self.folder,
            env={**os.environ, "GIST": PROGRAM,
                 "PYTHONPATH": str(REPOSITORY / "python")})
        self.assertEqual(run.returncode, 0)
        return run.stdout.decode()

    def fill(self, start: int, end: int) -> None:
        """Commits the entries of these rows."""
        with gist.open(self.path) as index:
            for first in range(start, end, 500):
                with index.transaction() as t:
                    t.insert_many(entries(first, min(first + 500, end)))

    def found(self) -> List[Tuple[int, gist.Box]]:
        """All entries that the file holds."""
        with gist.open(self.path) as index, index.reading() as t:
            return list(t.overlap(PLANE))

    def limited(self, limit: str, most: int) -> Path:
        """The path of the program under a limit of setrlimit."""
        path = self.folder / limit
        path.write_text(LIMITED.format(python=sys.executable, limit=limit,
                                       most=most, program=PROGRAM))
        path.chmod(path.stat().st_mode | stat.S_IXUSR)
        return path

    def answering(self, lines: bytes, status: int = 0,
                  more: bytes = b"") -> Path:
        """The path of a program that answers only these, and ends."""
        path = self.folder / "answering"
        path.write_text(f"#!{sys.executable}\nimport sys\n"
                        f"for lines in {lines!r}, {more!r}:\n"
                        f"    if lines: sys.stdin.readline()\n"
                        f"    sys.stdout.buffer.write(lines)\n"
                        f"    sys.stdout.flush()\n"
                        f"sys.exit({status})\n")
        path.chmod(path.stat().st_mode | stat.S_IXUSR)
        return path


def rows(hits: Iterator[Tuple[int, gist.Box]]) -> List[int]:
    """The rows of what was found."""
    return [row for row, _ in hits]
