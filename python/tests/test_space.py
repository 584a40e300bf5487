"""Boxes of space: six numbers each, in an index whose file says so."""

import itertools
import os
import unittest
import unittest.mock
import xml.etree.ElementTree
from pathlib import Path
from typing import List, Tuple

import gist
from gist import _draw, _load
from gist._copy import copy
from gist._entries import KINDS
from gist._place import place_of
from gist._table import BadLine, entries_of
from gist._tree import live_entries
from tests import PLANE, Case, rows
from tests.test_tools import SVG, Tool, lines_of

SPACE = (*[gist.MIN_CORNER] * 3, *[gist.MAX_CORNER] * 3)


def box3_of(row: int) -> gist.Box3:
    """A different box for each row."""
    return gist.Box3(10 * row, -row, row % 7, 10 * row + 5, row, row % 7 + 3)


def entries3(start: int, end: int) -> List[Tuple[int, gist.Box3]]:
    """The entries of these rows."""
    return [(row, box3_of(row)) for row in range(start, end)]


class Calls(Case):
    """What each call takes and returns."""

    def new3(self, pages: int = 512, fanout: int = 16) -> None:
        gist.format(self.path, pages, fanout, dimensions=3)

    def test_entries_and_searches(self) -> None:
        self.new3()
        with gist.open(self.path) as index:
            self.assertEqual(index.dimensions, 3)
            with index.transaction() as t:
                t.insert(7, (0, 0, 0, 2, 2, 2))
                (row, box), = t.covers((1, 1, 1, 2, 2, 2))
                self.assertEqual((row, box), (7, (0, 0, 0, 2, 2, 2)))
                self.assertIsInstance(box, gist.Box3)
                self.assertEqual((box.z1, box.z2), (0, 2))
                self.assertEqual(len(t.covers((1, 1, 1, 2, 2, 3))), 0)
                self.assertEqual(rows(t.overlap((2, 2, 2, 9, 9, 9))), [7])
                self.assertEqual(rows(t.overlap((2, 2, 3, 9, 9, 9))), [])
                self.assertEqual(rows(t.within((0, 0, 0, 2, 2, 9))), [7])
                self.assertEqual(rows(t.equal(gist.Box3(0, 0, 0, 2, 2, 2))),
                                 [7])
                t.insert_many([(gist.MAX_ROW, SPACE), *entries3(20, 320)])
                self.assertEqual(t.delete_many(entries3(21, 40)), 19)
                t.delete(gist.MAX_ROW, SPACE)
            self.assertEqual(list(index.search(SPACE)), [
                (7, (0, 0, 0, 2, 2, 2)), *entries3(20, 21),
                *entries3(40, 320)])
            self.assertEqual(
                list(map(rows, index.search_many(map(box3_of,
                                                     range(50, 70))))),
                [[row] for row in range(50, 70)])
        self.assertEqual(gist.stat(self.path).kind, 3)
        self.assertIn("entry 20 200 -20 6 205 20 9 live",
                      gist.dump(self.path))

    def test_reversed_corners_are_left_to_the_index(self) -> None:
        self.new3()
        with gist.open(self.path) as index, index.transaction() as t:
            with self.assertRaisesRegex(gist.BadBox, "z2 < z1"):
                t.insert(7, (0, 0, 1, 1, 1, 0))

    def test_wrong_count_of_numbers_is_not_asked(self) -> None:
        plane, space = self.folder / "plane", self.folder / "space"
        gist.format(plane, 16, dimensions=2)
        gist.format(space, 16, dimensions=3)
        for path, right, wrong, told in (
                (plane, PLANE, SPACE, "plane, which are 4 numbers: x1, y1"),
                (space, SPACE, PLANE, "space, which are 6 numbers: x1, y1, "
                 "z1, x2, y2, z2")):
            with gist.open(path) as index, index.transaction() as t:
                self.assertEqual(index.dimensions, len(right) // 2)
                with unittest.mock.patch.object(
                        t._hold.sessions.program, "ask") as ask:
                    for call in (
                            lambda: t.insert(1, wrong),
                            lambda: t.delete(1, wrong),
                            lambda: t.insert_many([(1, wrong)]),
                            lambda: t.delete_many([(1, wrong)]),
                            lambda: t.overlap(wrong),
                            lambda: t.overlap_each([wrong]),
                            lambda: t.within(wrong), lambda: t.equal(wrong),
                            lambda: t.covers(wrong), lambda: t.covers(()),
                            lambda: index.load([(1, wrong)])):
                        with self.assertRaisesRegex(ValueError, told):
                            call()
                ask.assert_not_called()
                with self.assertRaisesRegex(ValueError, "32 bits"):
                    t.insert(1, (*right[:-1], 2 ** 31))
                t.insert(1, right)
                self.assertEqual(list(t.overlap(right)), [(1, right)])

    def test_format(self) -> None:
        for dimensions in (1, 4, "3", None):
            with self.assertRaisesRegex(ValueError, "2 or 3"):
                gist.format(self.path, 16,
                            dimensions=dimensions)  # type: ignore[arg-type]
        self.assertFalse(self.path.exists())
        self.new3()
        gist.format(self.path, 16, overwrite=True)
        with gist.open(self.path) as index:
            self.assertEqual(index.dimensions, 2)

    def test_other_keys(self) -> None:
        """Intervals are refused by the program; and a program that opens
        what this client doesn't know is ended."""
        self.new3()
        with open(self.path, "r+b") as file:
            os.pwrite(file.fileno(), b"\0\2", 512 + 6)
        for call in (gist.open, gist.verify, gist.stat,
                     lambda path: list(gist.dump(path))):
            with self.assertRaises(gist.BadParameter):
                call(self.path)
        opens = self.answering(b"", more=b"0 refused 15 bad session\n")
        with self.assertRaisesRegex(gist.ProtocolError, "of class 2"):
            gist.open(self.path, program=opens)

    def test_copy(self) -> None:
        self.new3()
        with gist.open(self.path) as index:
            index.load(entries3(0, 700))
        new = self.folder / "new.gist"
        self.assertEqual(copy(self.path, new), 700)
        self.assertEqual(gist.stat(new).kind, 3)
        self.assertEqual(sorted(live_entries(gist.dump(new))),
                         entries3(0, 700))


class Curve(unittest.TestCase):
    """The order of a load."""

    def test_next_places_are_neighbours(self) -> None:
        step = 2 ** 28
        cells = {}
        for cell in itertools.product(range(16), repeat=3):
            corners = [at * step - 2 ** 31 for at in cell]
            cells[place_of((*corners, *corners))] = cell
        self.assertEqual(len(cells), 16 ** 3)
        order = [cells[place] for place in sorted(cells)]
        for one, other in zip(order, order[1:]):
            self.assertEqual(sum(map(abs, map(int.__sub__, one, other))), 1)

    def test_ends_of_space(self) -> None:
        least, most = gist.MIN_CORNER, gist.MAX_CORNER
        self.assertEqual(place_of([least] * 6), 0)
        self.assertLess(place_of([most] * 6), 2 ** 96)
        # (of a box the middle counts)
        self.assertEqual(place_of((least, 0, 5, most, 0, 5)),
                         place_of((-1, 0, 5, 0, 0, 5)))

    def test_runs_in_a_file_are_merged(self) -> None:
        wanted = [*entries3(0, 1000), (gist.MAX_ROW, gist.Box3(*SPACE))]
        at_once = list(_load._sorted(KINDS[3], wanted))
        self.assertEqual(sorted((it[1], it[2:]) for it in at_once), wanted)
        for run in (350, 1001):
            with unittest.mock.patch.object(_load, "_RUN", run):
                self.assertEqual(list(_load._sorted(KINDS[3], wanted)),
                                 at_once)


class Commands(Tool):
    """python -m gist around an index of boxes of space."""

    def new3(self) -> None:
        gist.format(self.path, 256, 16, dimensions=3)

    def drawn(self) -> List[xml.etree.ElementTree.Element]:
        """The rectangles in the picture of the index."""
        out, _ = self.run_tool("draw", self.path)
        top = xml.etree.ElementTree.fromstring(out)
        return [box for box in top.iter(f"{SVG}rect") if "x" in box.attrib]

    def test_tables(self) -> None:
        self.new3()
        wanted = entries3(0, 600)
        table = self.folder / "boxes.csv"
        table.write_text("row,x1,y1,z1,x2,y2,z2\n" + lines_of(wanted))
        self.assertEqual(self.run_tool("load", table, self.path),
                         ("loaded 600\n", ""))
        dumped, _ = self.run_tool("dump", self.path)
        self.assertEqual(sorted(dumped.splitlines()),
                         sorted(lines_of(wanted).splitlines()))
        told, _ = self.run_tool("stat", self.path)
        self.assertIn("\nkind boxes of space\n", told)
        new = self.folder / "new.gist"
        self.assertEqual(self.run_tool("copy", self.path, new),
                         ("copied 600\n", ""))
        told = self.fails("load", "-", self.path, lines="7,0,0,10,10\n")
        self.assertIn("line 1: not a row and six corners", told)
        other = self.folder / "other.gist"
        gist.format(other, 64)
        self.assertIn("line 1: not a row and four corners",
                      self.fails("load", "-", other, lines=dumped))

    def test_lines(self) -> None:
        line = "7,0,-1,0,10,10,5\n"
        self.assertEqual(list(entries_of([line], "", 3)),
                         [(7, gist.Box3(0, -1, 0, 10, 10, 5))])
        for wrong, why in (("7,0,0,0,10,10", "six"),
                           ("7,0,0,6,10,10,5", "x2 < x1 or y2 < y1 or z2"),
                           (f"7,0,0,0,10,10,{2 ** 31}", "32 bits")):
            with self.assertRaisesRegex(BadLine, f"^a.csv: line 2: .*{why}"):
                list(entries_of([line, wrong], "a.csv", 3))

    def test_picture(self) -> None:
        """The higher a box is, the darker it is, and the later drawn."""
        self.new3()
        with gist.open(self.path) as index, index.transaction() as t:
            for row in (3, 1, 2, 0):
                t.insert(row, (0, 0, 10 * row, 9, 9, 10 * row + 10))
            t.insert(9, (0, 0, 0, 9, 9, 9))
            t.delete(9, (0, 0, 0, 9, 9, 9))
        *boxes, leaf = self.drawn()
        shades = [box.attrib["fill"] for box in boxes]
        self.assertEqual(sorted(shades, reverse=True), shades)
        self.assertEqual(len(set(shades)), 5)
        self.assertIn("stroke-dasharray", boxes[0].attrib)
        self.assertEqual(leaf.attrib["fill-opacity"], "0.00")
        self.assertIn("level 0: 5 of 16", leaf.findtext(f"{SVG}title") or "")

    def test_picture_of_many(self) -> None:
        """Without entries it is the leaves that have the shades."""
        self.new3()
        with gist.open(self.path) as index:
            index.load(entries3(0, 300))
        with unittest.mock.patch.object(_draw, "MOST_ENTRIES", 299):
            text = "".join(_draw.draw(gist.dump(self.path), 16, "it"))
        top = xml.etree.ElementTree.fromstring(text)
        shades = [float(box.attrib["fill-opacity"])
                  for box in top.iter(f"{SVG}rect") if "x" in box.attrib
                  and "level 0" in (box.findtext(f"{SVG}title") or "")]
        self.assertGreater(len(shades), 300 // 16)
        self.assertTrue(all(0.1 <= it <= 0.9 for it in shades))
        self.assertIn("heights: 0 light, 9 dark", text)


class Pictures(Tool):
    """bench/picture.sh, of a dump in a file."""

    def test_dumps(self) -> None:
        for dimensions, boxes in ((2, [(0, 0, 9, 9), (3, 3, 20, 5)]),
                                  (3, [(0, 0, 0, 9, 9, 9),
                                       (3, 3, 5, 20, 5, 30)])):
            gist.format(self.path, 16, 4, dimensions=dimensions,
                        overwrite=True)
            with gist.open(self.path) as index:
                index.load(enumerate(boxes))
            dump = self.folder / "<dump>"
            dump.write_text("\n".join(gist.dump(self.path)) + "\n")
            top = xml.etree.ElementTree.fromstring(self.drawn(dump))
            self.assertEqual(top.findtext(f"{SVG}title"), "<dump>")
            # (the leaf, and its entries)
            self.assertEqual(
                sum("x" in box.attrib for box in top.iter(f"{SVG}rect")), 3)

    def drawn(self, dump: Path, status: int = 0) -> str:
        """What the script prints of a dump."""
        run = self.run_script("bench/picture.sh", dump)
        self.assertEqual(run.returncode, status, run.stderr)
        return run.stdout

    def test_what_is_no_dump(self) -> None:
        empty = self.folder / "empty"
        empty.touch()
        self.assertEqual(self.drawn(empty, 1), "")
        self.assertEqual(self.run_script("bench/picture.sh").returncode, 2)
