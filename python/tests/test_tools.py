"""The command line: python -m gist."""

import fcntl
import os
import signal
import subprocess
import sys
import time
import unittest.mock
import xml.etree.ElementTree
from pathlib import Path
from typing import List, Sequence, Tuple

import gist
from gist import _draw
from gist._copy import copy, pages_for
from tests import PROGRAM, REPOSITORY, Case, entries

F_SETPIPE_SZ = 1031
SVG = "{http://www.w3.org/2000/svg}"


def lines_of(found: Sequence[Tuple[int, Sequence[int]]]) -> str:
    """The lines of a table of these entries."""
    return "".join(f"{row},{','.join(map(str, box))}\n"
                   for row, box in found)


class Tool(Case):
    """Runs commands in the case's folder."""

    def start(self, *words: object, **more: object) -> subprocess.Popen:
        """Starts a command."""
        options = {"stdin": subprocess.DEVNULL, "stdout": subprocess.PIPE,
                   "stderr": subprocess.PIPE, **more}
        return subprocess.Popen(
            [sys.executable, "-m", "gist", *map(str, words)],
            cwd=self.folder, text=True, **options,  # type: ignore
            env={**os.environ, "GIST": PROGRAM,
                 "PYTHONPATH": str(REPOSITORY / "python")})

    def run_script(self, name: str, *words: object
                   ) -> "subprocess.CompletedProcess[str]":
        """Runs a script of the repository."""
        return subprocess.run([str(REPOSITORY / name), *map(str, words)],
                              stdout=subprocess.PIPE, stderr=subprocess.PIPE,
                              stdin=subprocess.DEVNULL, text=True, timeout=60)

    def run_tool(self, *words: object, lines: str = "",
                 status: int = 0) -> Tuple[str, str]:
        """What a command writes to standard output and standard error."""
        run = self.start(*words, stdin=subprocess.PIPE)
        out, told = run.communicate(lines, timeout=60)
        self.assertEqual(run.returncode, status, told)
        return out, told

    def fails(self, *words: object, lines: str = "") -> str:
        """The one line of standard error of a command that fails."""
        out, told = self.run_tool(*words, lines=lines, status=1)
        self.assertEqual(out, "")
        self.assertEqual(told.count("\n"), 1, told)
        self.assertTrue(told.startswith(f"gist {words[0]}: "), told)
        return told


class Tables(Tool):
    """load, dump, stat and verify."""

    def test_load_and_dump(self) -> None:
        self.new()
        wanted = entries(0, 600)
        table = self.folder / "boxes.csv"
        table.write_text("row,x1,y1,x2,y2\n" + lines_of(wanted))
        self.assertEqual(self.run_tool("load", table, self.path),
                         ("loaded 600\n", ""))
        dumped, _ = self.run_tool("dump", self.path)
        self.assertEqual(sorted(dumped.splitlines()),
                         sorted(lines_of(wanted).splitlines()))
        with gist.open(self.path) as index, index.transaction() as t:
            t.delete_many(wanted[:200])
        dumped, _ = self.run_tool("dump", self.path)
        other = self.folder / "other.gist"
        gist.format(other, 512)
        self.assertEqual(self.run_tool("load", "-", other, lines=dumped),
                         ("loaded 400\n", ""))
        self.path = other
        self.assertEqual(self.found(), wanted[200:])

    def test_stat_and_verify(self) -> None:
        self.new(64, 16)
        self.fill(0, 100)
        told, _ = self.run_tool("stat", self.path)
        found = dict(line.split(" ", 1) for line in told.splitlines())
        self.assertEqual(
            [found[name] for name in ("pages", "fanout", "commits",
                                      "entries")], ["64", "16", "1", "100"])
        self.assertEqual(
            self.run_tool("verify", self.path)[0],
            f"ok commits 1 entries 100 used {found['used']}\n")

    def test_what_fails(self) -> None:
        self.new()
        bad = lines_of(entries(0, 600)) + "600,0,0,1\n"
        self.assertIn("-: line 601: ",
                      self.fails("load", "-", self.path, lines=bad))
        self.assertEqual(self.found(), [])
        self.run_tool("load", "-", self.path, lines=lines_of(entries(7, 8)))
        told = self.fails("load", "-", self.path, lines="7,70,-7,75,7\n")
        self.assertIn("load: present", told)
        self.assertIn("row 7, box (70, -7, 75, 7); 0 entries are "
                      "committed", told)
        self.assertIn("nothing.csv", self.fails("load", "nothing.csv",
                                                self.path))
        for words in (("stat", "nothing"), ("verify", "nothing"),
                      ("dump", "nothing"), ("draw", "nothing"),
                      ("copy", "nothing", "new")):
            self.fails(*words)
        self.assertFalse((self.folder / "new").exists())
        with gist.open(self.path):
            self.fails("dump", self.path)

    def test_wrong_words(self) -> None:
        for words in ((), ("open",), ("stat",), ("load", "a"),
                      ("copy", "a", "b", "--pages", "x")):
            out, told = self.run_tool(*words, status=2)
            self.assertEqual(out, "")
            self.assertIn("usage: ", told)

    def test_program_that_is_not_there(self) -> None:
        self.new()
        with unittest.mock.patch("tests.test_tools.PROGRAM", "/nothing"):
            self.assertIn("/nothing", self.fails("dump", self.path))


class Streams(Tool):
    """Readers that leave, a full disk, Ctrl-C, a terminal."""

    def test_reader_that_leaves(self) -> None:
        self.new()
        self.fill(0, 1000)
        ours, theirs = os.pipe()
        # (the smallest pipe, so that not all fits into it)
        fcntl.fcntl(theirs, F_SETPIPE_SZ, 4096)
        run = self.start("dump", self.path, stdout=theirs)
        os.close(theirs)
        self.assertNotEqual(os.read(ours, 10), b"")
        os.close(ours)
        self.assertEqual(run.communicate(timeout=60)[1], "")
        self.assertEqual(run.returncode, 1)

    def test_output_that_is_full(self) -> None:
        self.new()
        with open("/dev/full", "w") as full:
            run = self.start("dump", self.path, stdout=full)
            self.assertEqual(run.communicate()[1], "")
            self.fill(0, 3)
            run = self.start("dump", self.path, stdout=full)
            self.assertEqual(run.communicate()[1],
                             "gist dump: No space left on device\n")
        self.assertEqual(run.returncode, 1)

    def test_interrupt(self) -> None:
        self.new()
        run = self.start("load", "-", self.path, stdin=subprocess.PIPE)
        self.wait_for_lock()
        run.send_signal(signal.SIGINT)
        out, told = run.communicate(timeout=60)
        self.assertEqual((run.returncode, out), (130, ""))
        self.assertRegex(told, r"^gist load: interrupted[^\n]*\n\Z")

    def wait_for_lock(self) -> None:
        """Waits until another process has the index open."""
        with open(self.path) as file:
            for _ in range(600):
                try:
                    fcntl.flock(file, fcntl.LOCK_SH | fcntl.LOCK_NB)
                except BlockingIOError:
                    # (a moment more, until what reads lines has begun)
                    time.sleep(0.2)
                    return
                fcntl.flock(file, fcntl.LOCK_UN)
                time.sleep(0.02)
        self.fail("nobody opens the file")

    def test_terminal(self) -> None:
        self.new()
        ours, theirs = os.openpty()
        try:
            run = self.start("load", "-", self.path, stderr=theirs,
                             stdin=subprocess.PIPE)
            out, _ = run.communicate(lines_of(entries(0, 1200)))
            self.assertEqual((run.returncode, out), (0, "loaded 1200\n"))
            told = os.read(ours, 4096).decode()
        finally:
            os.close(ours)
            os.close(theirs)
        self.assertIn("\r1,000 read", told)


class Copies(Tool):
    """copy: the room of deleted entries comes back."""

    def full(self) -> List[Tuple[int, gist.Box]]:
        """Makes an index whose pages are used up by boxes that wander, and
        returns the entries that live in it."""
        self.new(64, 16)
        first, last = 0, 50
        with self.assertRaises(gist.PagesFull):
            with gist.open(self.path) as index:
                with index.transaction() as t:
                    t.insert_many(entries(first, last))
                while True:
                    with index.transaction() as t:
                        t.delete_many(entries(first, first + 25))
                        t.insert_many(entries(last, last + 25))
                    first, last = first + 25, last + 25
        self.assertEqual(self.found(), entries(first, last))
        return entries(first, last)

    def test_index_that_is_full(self) -> None:
        live = self.full()
        new = self.folder / "new.gist"
        self.assertEqual(self.run_tool("copy", self.path, new),
                         (f"copied {len(live)}\n", ""))
        self.assertEqual(self.found(), live)
        self.assertEqual(gist.stat(new).pages, 64)
        self.assertEqual(gist.stat(new).fanout, 16)
        self.path = new
        self.assertEqual(self.found(), live)
        self.fill(10000, 10200)
        self.assertEqual(len(self.found()), len(live) + 200)
        self.assertEqual(sorted(os.listdir(self.folder)),
                         ["new.gist", "places.gist"])

    def test_pages(self) -> None:
        self.new(64, 16)
        self.fill(0, 30)
        new = self.folder / "new.gist"
        new.touch()
        self.run_tool("copy", self.path, new, "--pages", 16)
        self.assertEqual(gist.stat(new).pages, 16)
        self.assertEqual(pages_for(64, 30, 16), 64)
        self.assertGreater(pages_for(64, 1000, 16), 2 * 1000 // 16)
        self.assertEqual(pages_for(65536, 4_000_000, 100), 65536)
        # (a copy that has no room leaves nothing behind)
        small = self.folder / "small.gist"
        self.fill(30, 400)
        self.assertIn("8 pages are too few", self.fails(
            "copy", self.path, small, "--pages", 8))
        self.fails("copy", self.path, small, "--pages", 7)
        self.assertEqual(sorted(os.listdir(self.folder)),
                         ["new.gist", "places.gist"])

    def test_what_is_there_stays(self) -> None:
        self.new()
        self.fill(0, 30)
        other = self.folder / "other"
        other.write_text("mine")
        for new in (other, self.path, self.folder):
            self.assertIn(str(new), self.fails("copy", self.path, new))
        self.assertEqual(other.read_text(), "mine")
        self.assertEqual(self.found(), entries(0, 30))

    def test_interrupted(self) -> None:
        self.new()
        self.fill(0, 1000)

        def stop(_: int) -> None:
            self.assertGreater(len(os.listdir(self.folder)), 1)
            raise KeyboardInterrupt

        with self.assertRaises(KeyboardInterrupt):
            copy(self.path, self.folder / "new.gist", progress=stop)
        self.assertEqual(os.listdir(self.folder), ["places.gist"])

    def test_mode(self) -> None:
        self.new()
        self.path.chmod(0o640)
        new = self.folder / "new.gist"
        copy(self.path, new)
        self.assertEqual(new.stat().st_mode & 0o777, 0o640)


class Pictures(Tool):
    """draw."""

    def drawn(self, most: int = _draw.MOST_ENTRIES) -> List[int]:
        """How many pages of each level are in the picture, from the leaves
        on up, and how many entries that are live, and not."""
        with unittest.mock.patch.object(_draw, "MOST_ENTRIES", most):
            text = "".join(_draw.draw(gist.dump(self.path), 16, "<&>"))
        top = xml.etree.ElementTree.fromstring(text)
        self.assertEqual(top.findtext(f"{SVG}title"), "<&>")
        boxes = [box for box in top.iter(f"{SVG}rect") if "x" in box.attrib]
        titles = [box.findtext(f"{SVG}title") or "" for box in boxes]
        levels = [sum(f"level {level}: " in title for title in titles)
                  for level in range(3)]
        dashed = sum("stroke-dasharray" in box.attrib for box in boxes)
        return [*levels, titles.count("") - dashed, dashed]

    def test_tree(self) -> None:
        self.new()
        self.assertEqual(self.drawn(), [1, 0, 0, 0, 0])
        self.fill(0, 300)
        with gist.open(self.path) as index, index.transaction() as t:
            t.delete_many(entries(100, 103))
        leaves, inner, _, live, others = self.drawn()
        self.assertGreater(leaves, 300 // 16)
        self.assertGreater(inner, 1)
        self.assertEqual((live, others), (297, 3))
        self.assertEqual(self.drawn(most=299)[3:], [0, 0])
        out, _ = self.run_tool("draw", self.path)
        self.assertTrue(out.startswith("<svg "))
        self.assertTrue(out.endswith("</svg>\n"))
