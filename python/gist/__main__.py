"""The command line of the client: python -m gist."""

import argparse
import contextlib
import os
import sys
import time
from pathlib import Path
from typing import Iterable, Iterator, List, Optional, TextIO, Tuple

import gist
from gist._copy import copy
from gist._draw import MOST_ENTRIES, draw
from gist._entries import AnyBox
from gist._table import entries_of
from gist._tree import live_entries

# How often the progress of a load or a copy is shown, in seconds.
_OFTEN = 0.1
# The classes of keys by their numbers in a file.
_KINDS = {1: "boxes", 2: "intervals", 3: "boxes of space"}

_Entry = Tuple[int, AnyBox]


def main(words: Optional[List[str]] = None) -> int:
    """Does what the arguments ask, and returns the status: 0 if all was done,
    1 with a line on standard error if it failed, 130 after Ctrl-C. Wrong
    words end the process with status 2."""
    asked = _parser().parse_args(words)
    try:
        if sys.stdout is None:
            raise OSError("standard output is closed")
        asked.run(asked)
        sys.stdout.flush()
        return 0
    except BrokenPipeError:
        # (the reader has left)
        _drop_output()
        return 1
    except KeyboardInterrupt as fault:
        return _failed(asked, "interrupted", fault, 130)
    except (gist.GistError, OSError, ValueError) as fault:
        return _failed(asked, _sentence(fault), fault, 1)


def _failed(asked: argparse.Namespace, sentence: str, fault: BaseException,
            status: int) -> int:
    """Says on one line what failed, and how far a load had come."""
    line = f"gist {asked.command}: {sentence}"
    if hasattr(fault, "committed") and not isinstance(fault, gist.Refused):
        # (a refusal says this itself)
        line += f"; {fault.committed} entries are committed"
    if sys.stderr:
        print(line, file=sys.stderr)
    if isinstance(fault, OSError):
        _drop_output()
    return status


def _drop_output() -> None:
    """Lets nothing be written any more, not even as the process ends."""
    if sys.stdout:
        os.dup2(os.open(os.devnull, os.O_WRONLY), sys.stdout.fileno())


def _sentence(fault: BaseException) -> str:
    """What an exception says, on one line."""
    if isinstance(fault, OSError) and fault.strerror:
        return ": ".join(filter(None, (fault.filename, fault.strerror)))
    return " ".join(str(fault).split())


def _stat(asked: argparse.Namespace) -> None:
    it = gist.stat(asked.index)
    told = {**it._asdict(), "full": f"{it.full:.1%}",
            "kind": _KINDS.get(it.kind, it.kind)}
    for name, number in told.items():
        print(name, number)


def _verify(asked: argparse.Namespace) -> None:
    it = gist.verify(asked.index)
    print(f"ok commits {it.commits} entries {it.entries} used {it.used}")


def _load(asked: argparse.Namespace) -> None:
    with _table(asked.file) as lines, gist.open(asked.index) as index:
        with _Progress() as progress:
            entries = progress.counting(
                entries_of(lines, asked.file, index.dimensions))
            count = index.load(entries, progress.loaded)
    print(f"loaded {count}")


def _dump(asked: argparse.Namespace) -> None:
    for row, box in live_entries(gist.dump(asked.index)):
        print(row, *box, sep=",")


def _copy(asked: argparse.Namespace) -> None:
    with _Progress() as progress:
        count = copy(asked.old, asked.new, asked.pages, progress.copied)
    print(f"copied {count}")


def _migrate(asked: argparse.Namespace) -> None:
    it = gist.migrate(asked.old, asked.new)
    print(f"migrated commits {it.commits} used {it.used}")


def _draw(asked: argparse.Namespace) -> None:
    fanout = gist.stat(asked.index).fanout
    for line in draw(gist.dump(asked.index), fanout, Path(asked.index).name):
        print(line)


@contextlib.contextmanager
def _table(name: str) -> Iterator[TextIO]:
    """The lines of a file, or of standard input if it is called -."""
    if name == "-":
        yield sys.stdin
        return
    with open(name, encoding="utf-8-sig", errors="replace",
              newline="") as lines:
        yield lines


class _Progress:
    """Shows on a terminal, now and then, how many entries are done."""

    def __init__(self) -> None:
        self._is_shown = bool(sys.stderr) and sys.stderr.isatty()
        self._next = 0.0

    def __enter__(self) -> "_Progress":
        return self

    def __exit__(self, *_: object) -> None:
        if self._next:
            print(file=sys.stderr)

    def counting(self, entries: Iterable[_Entry]) -> Iterator[_Entry]:
        """The same entries; it shows how many of them were read."""
        for count, entry in enumerate(entries, 1):
            if count % 1000 == 0:
                self._show(count, "read")
            yield entry

    def loaded(self, count: int) -> None:
        self._show(count, "loaded")

    def copied(self, count: int) -> None:
        self._show(count, "copied")

    def _show(self, count: int, what: str) -> None:
        now = time.monotonic()
        if self._is_shown and now >= self._next:
            self._next = now + _OFTEN
            # (what was there before on the line goes)
            print(f"\r{count:,} {what}\x1b[K", end="", file=sys.stderr,
                  flush=True)


def _parser() -> argparse.ArgumentParser:
    parser = argparse.ArgumentParser(
        prog="python -m gist",
        description="Tools around an index of gist, the spatial index in a "
        "file. The index must not be open; the environment variable GIST "
        "names the program.")
    parser.add_argument("--version", action="version",
                        version=f"gist client {gist.__version__}")
    commands = parser.add_subparsers(dest="command", metavar="COMMAND",
                                     required=True)

    def add(name: str, run: object, does: str,
            more: str = "") -> argparse.ArgumentParser:
        command = commands.add_parser(name, help=does, description=(
            f"{does[0].upper()}{does[1:]}. {more}"))
        command.set_defaults(run=run)
        return command

    for name, run, does, more in (
            ("stat", _stat, "print sizes, counts and how full an index is",
             ""),
            ("verify", _verify, "test whether an index is sound", ""),
            ("dump", _dump, "print the live entries, a row and the corners "
             "of its box a line with commas between",
             "This is what load reads."),
            ("draw", _draw, "print a picture (SVG) of an index's tree",
             "The pages have a colour for each level, and the fuller a page "
             f"is, the darker it is. Up to {MOST_ENTRIES:,} entries are "
             "drawn too. Boxes of space are seen from above, the higher the "
             "darker.")):
        add(name, run, does, more).add_argument("index", metavar="INDEX")
    load = add("load", _load, "add the entries of a file to an index",
               "Each line has a row and four corners with commas between, "
               "or six of a box of space; the first may be a header. All "
               "lines are read and sorted by place before the first is "
               "added.")
    load.add_argument("file", metavar="FILE.csv",
                      help="the file, or - for standard input")
    load.add_argument("index", metavar="INDEX")
    copying = add("copy", _copy, "copy the live entries of an index into a "
                  "new one", "The room of deleted entries isn't copied. NEW "
                  "must not exist, or be empty.")
    copying.add_argument("old", metavar="OLD")
    copying.add_argument("new", metavar="NEW")
    migrating = add("migrate", _migrate, "bring an index of version 1 into a "
                    "new file", "OLD is only read. NEW must not exist, or be "
                    "empty.")
    migrating.add_argument("old", metavar="OLD")
    migrating.add_argument("new", metavar="NEW")
    copying.add_argument(
        "--pages", type=int, metavar="N", help="how many pages NEW may have, "
        "8 to 65536; without it as many as OLD, or twice what the entries "
        "need where that is more")
    return parser


if __name__ == "__main__":
    sys.exit(main())
