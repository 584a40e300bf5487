"""Loads: the order of entries, and what is said if a load fails."""

import random
import threading
import unittest
import unittest.mock
from typing import Iterator, List, Tuple

import gist
from gist import _load
from gist._entries import KINDS
from gist._place import place_of
from gist._table import BadLine, entries_of
from tests import PLANE, Case, box_of, entries


def scattered(count: int) -> List[Tuple[int, gist.Box]]:
    """Entries in random places, the same ones each time."""
    numbers = random.Random(count)
    found = []
    for row in range(count):
        x, y = numbers.randrange(-5000, 5000), numbers.randrange(-5000, 5000)
        found.append((row, gist.Box(x, y, x + row % 7, y + row % 5)))
    return found


class Curve(unittest.TestCase):
    """The order of places."""

    def test_next_places_are_neighbours(self) -> None:
        step = 2 ** 26
        cells = {}
        for x in range(64):
            for y in range(64):
                x1, y1 = x * step - 2 ** 31, y * step - 2 ** 31
                cells[place_of((x1, y1, x1, y1))] = x, y
        self.assertEqual(len(cells), 64 * 64)
        order = [cells[place] for place in sorted(cells)]
        for (x, y), (next_x, next_y) in zip(order, order[1:]):
            self.assertEqual(abs(x - next_x) + abs(y - next_y), 1)

    def test_ends_of_the_plane(self) -> None:
        least, most = gist.MIN_CORNER, gist.MAX_CORNER
        self.assertEqual(place_of((least, least, least, least)), 0)
        self.assertLess(place_of((most, most, most, most)), 2 ** 64)
        # (of a box the middle counts)
        self.assertEqual(place_of((least, 0, most, 0)),
                         place_of((-1, 0, 0, 0)))

    def test_runs_in_a_file_are_merged(self) -> None:
        wanted = scattered(1050)
        wanted.append((gist.MAX_ROW, gist.Box(gist.MIN_CORNER, gist.MIN_CORNER,
                                              gist.MAX_CORNER, 0)))
        at_once = list(_load._sorted(KINDS[1], wanted))
        self.assertEqual(at_once, sorted(at_once))
        self.assertEqual(sorted((it[1], gist.Box(*it[2:])) for it in at_once),
                         sorted(wanted))
        for run in (1, 100, 350, 1051, 1052):
            with unittest.mock.patch.object(_load, "_RUN", run):
                self.assertEqual(list(_load._sorted(KINDS[1], wanted)),
                                 at_once)


class Load(Case):
    """Index.load."""

    def test_load(self) -> None:
        self.new()
        done: List[int] = []
        with gist.open(self.path) as index:
            self.assertEqual(index.load(iter(scattered(1200)), done.append),
                             1200)
            self.assertEqual(index.load([]), 0)
        self.assertEqual(done, [500, 1000, 1200])
        self.assertEqual(self.found(), scattered(1200))

    def test_entries_that_fail(self) -> None:
        self.new()

        def broken() -> Iterator[Tuple[int, gist.Box]]:
            yield from scattered(700)
            raise LookupError("no more")

        with gist.open(self.path) as index:
            with self.assertRaises(LookupError) as it:
                index.load(broken())
            self.assertEqual(it.exception.committed, 0)  # type: ignore
            for entry in ((1, (0, 0, 1, 2 ** 31)), (-1, (0, 0, 1, 1)),
                          (1, (0, 0, 0.5, 1)), (1, (0, 0, 1))):
                with self.assertRaises((ValueError, TypeError)) as that:
                    index.load([*scattered(700), entry])  # type: ignore
                self.assertEqual(that.exception.committed, 0)  # type: ignore
            with self.assertRaises(gist.BadBox):
                index.load([(1, (5, 0, 4, 0))])
        self.assertEqual(self.found(), [])

    def test_entry_that_is_there(self) -> None:
        self.new()
        self.fill(5, 6)
        with gist.open(self.path) as index:
            with self.assertRaises(gist.Present) as it:
                index.load(entries(0, 20))
        self.assertEqual(it.exception.committed, 0)  # type: ignore
        self.assertEqual(it.exception.entry, (5, box_of(5)))  # type: ignore
        self.assertEqual(self.found(), entries(5, 6))

    def test_index_that_becomes_full(self) -> None:
        self.new(16, 100)
        with gist.open(self.path) as index:
            with self.assertRaises(gist.PagesFull) as it:
                index.load(entries(0, 5000))
        committed = it.exception.committed  # type: ignore
        self.assertGreater(committed, 0)
        self.assertEqual(len(self.found()), committed)

    def test_progress_that_fails(self) -> None:
        self.new()

        def stop(done: int) -> None:
            if done == 1000:
                raise KeyboardInterrupt

        with gist.open(self.path) as index:
            with self.assertRaises(KeyboardInterrupt) as it:
                index.load(scattered(1700), stop)
        self.assertEqual(it.exception.committed, 1000)  # type: ignore
        self.assertEqual(len(self.found()), 1000)

    def test_beside_a_reader(self) -> None:
        """A load waits until a reader that is in its way has ended."""
        self.new()
        with gist.open(self.path) as index:
            reader = index.reading()
            reader.overlap(PLANE)
            timer = threading.Timer(0.1, reader.abort)
            timer.start()
            self.assertEqual(index.load(entries(0, 600)), 600)
            timer.join()
        self.assertEqual(self.found(), entries(0, 600))


class Table(unittest.TestCase):
    """Lines with commas."""

    def test_lines(self) -> None:
        wanted = [(7, gist.Box(0, -1, 10, 10)),
                  (gist.MAX_ROW, gist.Box(gist.MIN_CORNER, 0, 0, 0))]
        lines = [f"{row},{','.join(map(str, box))}\n" for row, box in wanted]
        for head in ([], ["row,x1,y1,x2,y2\n"], ["\n", "a\n"], ["\r\n"]):
            self.assertEqual(list(entries_of([*head, *lines], "")), wanted)
        self.assertEqual(list(entries_of(
            [' 7, 0 ,"-1",10,10\r\n', "\n"], "")), wanted[:1])
        self.assertEqual(list(entries_of([], "")), [])

    def test_bad_lines(self) -> None:
        good = "7,0,0,10,10\n"
        for line, why in (
                ("7,0,0,10", "not a row"), ("7,0,0,10,10,1", "not a row"),
                ("x,y", "not a row"), ("7,0,0,10,1.5", "not a row"),
                ("7,0,0,10,1_0", "not a row"), ("7,0,0,10,", "not a row"),
                ("-1,0,0,1,1", "row -1"), (f"{2 ** 64},0,0,1,1", "row 1844"),
                (f"1,0,0,{2 ** 31},1", "32 bits"), ("1,2,0,1,1", "x2 < x1"),
                ("1,0,2,1,1", "y2 < y1")):
            with self.assertRaisesRegex(BadLine, f"^a.csv: line 3: .*{why}"):
                list(entries_of(["row\n", good, line, good], "a.csv"))
        # (a first line with a number is no header)
        with self.assertRaisesRegex(BadLine, "^a.csv: line 1: "):
            list(entries_of(["7,0,0,10,1O\n"], "a.csv"))
