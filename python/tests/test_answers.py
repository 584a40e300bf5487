"""How answers are read, of a program that prints what a test says."""

import stat
import sys
import unittest
from pathlib import Path
from typing import List, Sequence, Tuple

import gist
from gist._entries import AnyBox
from tests import PLANE, Case, box_of, entries, rows

# Answers each line by pieces, and lets some time pass after each; then it
# ends, or reads on.
ANSWERING = """#!{python}
import sys, time
for answer in {answers!r}:
    sys.stdin.buffer.readline()
    for piece in answer:
        sys.stdout.buffer.write(piece)
        sys.stdout.flush()
        time.sleep(0.02 if len(answer) > 1 else 0)
{reads_on} and sys.stdin.buffer.read()
"""
OPENED, BEGUN = [b"0 refused 15 bad session\n"], [b"1 ok\n"]
ENTRY = b"1 entry 7 0 0 1 1\n"


class Answers(Case):
    """What searches are answered with."""

    def searched(self, *pieces: bytes, reads_on: bool = True,
                 boxes: Sequence[Sequence[int]] = ()
                 ) -> List[List[Tuple[int, AnyBox]]]:
        """What searches find that are answered with these pieces."""
        path = self.folder / "answering"
        path.write_text(ANSWERING.format(
            python=sys.executable, answers=[OPENED, BEGUN, pieces],
            reads_on=reads_on))
        path.chmod(path.stat().st_mode | stat.S_IXUSR)
        index = gist.open(self.path, program=path)
        t = index.reading()
        try:
            if boxes:
                return [list(it) for it in t.overlap_each(boxes)]
            return [list(t.overlap(PLANE))]
        finally:
            index._program.kill()

    def test_ends_of_ranges(self) -> None:
        self.new()
        last = f"1 entry {gist.MAX_ROW} {' '.join(map(str, PLANE))}\n".encode()
        self.assertEqual(self.searched(b"1 found 2\n" + ENTRY + last),
                         [[(7, (0, 0, 1, 1)), (gist.MAX_ROW, PLANE)]])
        self.assertEqual(self.searched(b"1 found 0\n"), [[]])

    def test_lines_that_are_none(self) -> None:
        self.new()
        for line in (b"1 entry 7 0 0 1\n", b"1 entry 7 0 0 1 1 1\n",
                     b"1 entry 7 0 0 x 1\n", b"1 entry  0 0 1 1\n",
                     b"1 entry 7 - 0 1 1\n", b"1 entries 7 0 0 1 1\n",
                     b"1 found 0\n", b"\n", b"1 entry 7\0 0 0 1 1\n"):
            with self.assertRaises(gist.ProtocolError, msg=line):
                self.searched(b"1 found 1\n" + line)
            with self.assertRaises(gist.ProtocolError, msg=line):
                self.searched(b"1 found 0\n1 found 2\n" + line + ENTRY,
                              boxes=[PLANE] * 2)
        for line in (b"1 found \n", b"1 found -1\n", b"1 found x\n",
                     b"1 found 1x\n", b"1 found 0\n1 found 0\n"):
            with self.assertRaises(gist.ProtocolError, msg=line):
                self.searched(line)
            with self.assertRaises(gist.ProtocolError, msg=line):
                self.searched(b"1 found 0\n" + line, boxes=[PLANE] * 2)

    def test_pieces(self) -> None:
        """An answer that comes in pieces is a whole one."""
        self.new()
        wanted = [(12345, (0, -10, 100, 1)), (7, (0, 0, 1, 1))]
        pieces = (b"1 fou", b"nd", b" 2\n1 entry 12", b"345 0 -", b"10 1",
                  b"00 1", b"\n", ENTRY)
        self.assertEqual(self.searched(*pieces), [wanted])
        both = (*pieces, b"1 found 1\n1 entry 7 0", b" 0 1 1\n", b"1",
                b" found 0\n")
        self.assertEqual(self.searched(*both, boxes=[PLANE] * 3),
                         [wanted, wanted[1:], []])

    def test_cut_off(self) -> None:
        self.new()
        for answer in (b"1 found 1\n1 entry 123", b"1 found 1", b"1 found 2\n"
                       + ENTRY, b"1 found 1\n1 entry 123 0 0 1 1"):
            with self.assertRaises(gist.Ended, msg=answer):
                self.searched(answer, reads_on=False)
            with self.assertRaises(gist.Ended, msg=answer):
                self.searched(b"1 found 1\n" + ENTRY, answer,
                              reads_on=False, boxes=[PLANE] * 2)

    def test_refused_among_many(self) -> None:
        self.new()
        answers = [b"1 found 1\n" + ENTRY, b"1 refused 5 busy 3\n",
                   b"1 found 2\n" + ENTRY * 2, b"1 found 0\n"]
        with self.assertRaises(gist.Busy) as it:
            self.searched(b"".join(answers), boxes=[PLANE] * 4)
        self.assertEqual(it.exception.session, 3)
        with self.assertRaises(gist.Busy):
            self.searched(*answers, boxes=[PLANE] * 4)


class Long(Case):
    """Answers that are longer than what is read at once, 65,536 bytes."""

    def setUp(self) -> None:
        super().setUp()
        self.new(512, 100)
        self.fill(0, 4000)

    def test_searches(self) -> None:
        boxes = [PLANE if i % 2 else box_of(i) for i in range(16)]
        with gist.open(self.path) as index, index.reading() as t:
            self.assertEqual(list(t.overlap(PLANE)), entries(0, 4000))
            for i, hits in enumerate(t.overlap_each(boxes)):
                wanted = entries(0, 4000) if i % 2 else entries(i, i + 1)
                self.assertEqual(len(hits), len(wanted))
                self.assertEqual(list(hits), wanted)

    def test_refusal_between(self) -> None:
        """The next call meets its own answer."""
        boxes = [PLANE, (1, 0, 0, 0), PLANE]
        with gist.open(self.path) as index, index.reading() as t:
            with self.assertRaises(gist.BadBox):
                t.overlap_each(boxes)
            self.assertEqual(rows(t.equal(box_of(5))), [5])


if __name__ == "__main__":
    unittest.main()
