"""What each call does, and that sessions are kept apart."""

import os
import threading
import time
from contextlib import ExitStack

import gist
from tests import PLANE, Case, box_of, entries, rows


class Calls(Case):
    """One transaction after another."""

    def test_commit_is_kept_and_numbered(self) -> None:
        self.new()
        with gist.open(self.path) as index:
            with index.transaction() as t:
                self.assertIsNone(t.number)
                t.insert(7, (0, 0, 10, 10))
            self.assertEqual(t.number, 1)
            with index.transaction() as t:
                t.insert(8, gist.Box(5, 5, 6, 6))
                self.assertEqual(t.commit(), 2)
            self.assertEqual(t.number, 2)
        self.assertEqual(self.found(),
                         [(7, (0, 0, 10, 10)), (8, (5, 5, 6, 6))])

    def test_exception_gives_up(self) -> None:
        self.new()
        with gist.open(self.path) as index:
            with self.assertRaisesRegex(RuntimeError, "mine"):
                with index.transaction() as t:
                    t.insert(7, (0, 0, 10, 10))
                    raise RuntimeError("mine")
            self.assertIsNone(t.number)
            with index.transaction() as t:
                t.insert(8, (0, 0, 10, 10))
                t.abort()
        self.assertEqual(self.found(), [])

    def test_searches(self) -> None:
        self.new()
        self.fill(1, 40)
        with gist.open(self.path) as index, index.reading() as t:
            self.assertEqual(rows(t.overlap((25, 0, 42, 0))), [2, 3, 4])
            self.assertEqual(rows(t.within((20, -3, 45, 3))), [2, 3])
            self.assertEqual(rows(t.equal(box_of(9))), [9])
            self.assertEqual(list(t.equal((0, 0, 0, 0))), [])
            self.assertEqual(rows(t.covers((21, 0, 22, 1))), [2])
            self.assertEqual(list(t.covers((19, 0, 22, 1))), [])
            self.assertEqual(list(t.overlap(PLANE)), entries(1, 40))
            self.assertEqual(t.overlap(PLANE).count, 39)
            (row, box), = t.equal(box_of(3))
            self.assertEqual((row, box.x1, box.y2), (3, 30, 3))

    def test_many_searches(self) -> None:
        self.new()
        self.fill(1, 40)
        with gist.open(self.path) as index:
            boxes = [box_of(row) for row in range(1, 40)] + [PLANE]
            hits = index.search_many(boxes)
            self.assertEqual([rows(it) for it in hits[:-1]],
                             [rows(index.search(it)) for it in boxes[:-1]])
            self.assertEqual(list(hits[-1]), entries(1, 40))
            self.assertEqual(index.search_many([]), [])
            with self.assertRaises(gist.BadBox):
                index.search_many([PLANE, (1, 0, 0, 0)])
            with index.reading() as t:
                self.assertEqual(
                    list(map(len, t.overlap_each([(0, 0, 0, 0)] * 16))),
                    [len(index.search((0, 0, 0, 0)))] * 16)
                with self.assertRaises(ValueError):
                    t.overlap_each([PLANE] * 17)

    def test_order_is_by_row_and_box(self) -> None:
        self.new()
        boxes = [(3, 0, 4, 0), (-3, 0, 4, 0), (3, -1, 4, 0)]
        with gist.open(self.path) as index, index.transaction() as t:
            for box in boxes:
                t.insert(5, box)
            t.insert(4, (9, 9, 9, 9))
            wanted = [(4, (9, 9, 9, 9)), *((5, it) for it in sorted(boxes))]
            self.assertEqual(list(t.overlap(PLANE)), wanted)

    def test_delete(self) -> None:
        self.new()
        self.fill(1, 300)
        with gist.open(self.path) as index:
            with index.transaction() as t:
                t.delete(1, box_of(1))
                self.assertEqual(t.delete_many(entries(2, 290)), 288)
            with index.transaction() as t:
                t.delete_many(entries(290, 300))
                t.abort()
        self.assertEqual(self.found(), entries(290, 300))

    def test_extremes(self) -> None:
        self.new()
        wanted = [(0, PLANE), (gist.MAX_ROW, PLANE)]
        with gist.open(self.path) as index, index.transaction() as t:
            t.insert_many(wanted)
        self.assertEqual(self.found(), wanted)

    def test_wrong_arguments_are_not_asked(self) -> None:
        self.new()
        with gist.open(self.path) as index, index.transaction() as t:
            for row in (-1, 2 ** 64, 1.0):
                with self.assertRaisesRegex(ValueError, "rows are integers"):
                    t.insert(row, (0, 0, 1, 1))  # type: ignore[arg-type]
            for box in ((0, 0, 2 ** 31, 0), (-2 ** 31 - 1, 0, 0, 0),
                        (0.5, 0, 1, 1), (float("nan"), 0, 1, 1)):
                with self.assertRaisesRegex(ValueError, "32 bits; degrees"):
                    t.insert(1, box)  # type: ignore[arg-type]
            for box in ((0, 0, 1), (0, 0, 1, 1, 1), (0.5, 0, 1, 1)):
                with self.assertRaises(ValueError):
                    t.insert(1, box)  # type: ignore[arg-type]
                with self.assertRaises(ValueError):
                    t.overlap(box)  # type: ignore[arg-type]
            for wrong in ("7", None):
                with self.assertRaises(TypeError):
                    t.insert(wrong, (0, 0, 1, 1))  # type: ignore[arg-type]
            self.assertEqual(list(t.overlap(PLANE)), [])

    def test_hits_may_be_left(self) -> None:
        self.new(512, 100)
        self.fill(0, 3000)
        with gist.open(self.path) as index:
            with index.reading() as t, index.reading() as u:
                hits = t.overlap(PLANE)
                self.assertEqual(hits.count, 3000)
                self.assertEqual(next(hits)[0], 0)
                # (of all that were found)
                self.assertEqual(len(hits), 3000)
                self.assertTrue(hits)
                self.assertFalse(t.overlap((-9, -9, -9, -9)))
                self.assertEqual(rows(u.overlap(box_of(77))), [77])
                self.assertEqual(rows(t.overlap(box_of(78))), [78])
        # (they outlive the transaction and the index)
        self.assertEqual(rows(hits), list(range(1, 3000)))

    def test_ten_thousand_calls_in_one_go(self) -> None:
        self.new(512, 100)
        with gist.open(self.path) as index:
            with self.assertRaises(gist.ClaimsFull) as it:
                with index.transaction() as t:
                    t.insert_many(entries(0, 10000))
            self.assertEqual(it.exception.place, 512)
            for first in range(0, 1500, 500):
                with index.transaction() as t:
                    self.assertEqual(
                        t.insert_many(iter(entries(first, first + 500))), 500)
            with index.reading() as t:
                for row in range(10000):
                    self.assertEqual(t.equal(box_of(row % 16)).count, 1)
        self.assertEqual(self.found(), entries(0, 1500))

    def test_dump(self) -> None:
        self.new(16, 4)
        with gist.open(self.path) as index, index.transaction() as t:
            t.insert(7, (0, 0, 10, 10))
        self.assertEqual(list(gist.dump(self.path)), [
            "commits 1 used 2 counter 0",
            "page 1 level 1 nsn 0 right 0 count 1", "child 2 0 0 10 10",
            "page 2 level 0 nsn 0 right 0 count 1", "entry 7 0 0 10 10 live"])
        # (left half way)
        lines = gist.dump(self.path)
        self.assertEqual(next(lines), "commits 1 used 2 counter 0")
        lines.close()  # type: ignore[attr-defined]

    def test_format_spares_what_is_there(self) -> None:
        self.new()
        self.fill(1, 3)
        with self.assertRaisesRegex(FileExistsError, "overwrite=True"):
            gist.format(self.path, 16)
        self.assertEqual(self.found(), entries(1, 3))
        gist.format(self.path, 16, overwrite=True)
        self.assertEqual(self.found(), [])
        self.path.write_bytes(b"")
        gist.format(self.path, 16)
        self.assertEqual(self.found(), [])

    def test_format_that_fails_leaves_no_file(self) -> None:
        program = self.limited("RLIMIT_FSIZE", 4096)
        with self.assertRaises(gist.GistError):
            gist.format(self.path, 16, program=program)
        self.assertFalse(self.path.exists())

    def test_stat_and_verify(self) -> None:
        self.new(16, 8)
        self.assertEqual(gist.verify(self.path), (0, 0, 2))
        self.fill(0, 30)
        report = gist.verify(self.path)
        self.assertEqual(report[:2], (1, 30))
        used = report.used
        self.assertIn(f"commits 1 used {used} ",
                      next(iter(gist.dump(self.path))))
        self.assertEqual(gist.stat(self.path),
                         gist.Stat(pages=16, fanout=8, kind=1, used=used,
                                   commits=1, entries=30, full=used / 16))
        self.path.write_bytes(self.path.read_bytes()[:2 ** 21])
        for call in (gist.verify, gist.stat):
            with self.assertRaises(gist.TooSmall):
                call(self.path)

    def test_frames_are_as_many_as_pages(self) -> None:
        """At least 16 of them and at most 4,096, unless a number is given."""
        program = self.folder / "told"
        program.write_text('#!/bin/sh\necho "frames $3" >&2; exit 7')
        program.chmod(0o755)
        for pages, frames in ((8, 16), (500, 500), (5000, 4096)):
            path = self.folder / str(pages)
            gist.format(path, pages)
            for given, wanted in ((None, frames), (77, 77)):
                with self.assertRaisesRegex(gist.Ended, f"frames {wanted}$"):
                    gist.open(path, given, program)

    def test_paths(self) -> None:
        for name in ("-places", "two words", "plätze"):
            path = self.folder / name
            gist.format(path, 8, 4)
            with gist.open(os.fspath(path), frames=16) as index:
                self.assertEqual(index.path, os.fspath(path))
        before = os.getcwd()
        os.chdir(self.folder)
        try:
            gist.format("-here", 8, 4)
            gist.open("-here").close()
            self.assertEqual(len(list(gist.dump("-here"))), 4)
        finally:
            os.chdir(before)


class Sessions(Case):
    """Transactions beside one another."""

    def test_eight_interleaved(self) -> None:
        self.new(512, 8)
        with gist.open(self.path) as index, ExitStack() as all_of_them:
            open_ones = [all_of_them.enter_context(index.transaction())
                         for _ in range(gist.SESSIONS)]
            self.assertEqual(sorted(t.session for t in open_ones),
                             list(range(1, 9)))
            with self.assertRaises(gist.NoSession):
                index.transaction()
            for row in range(40):
                for place, t in enumerate(open_ones):
                    t.insert(place * 100 + row, box_of(place * 100 + row))
            for place, t in enumerate(open_ones):
                left, _, _, _ = box_of(place * 100)
                _, _, right, _ = box_of(place * 100 + 39)
                self.assertEqual(rows(t.overlap((left, -1000, right, 1000))),
                                 list(range(place * 100, place * 100 + 40)))
            for place, t in enumerate(open_ones):
                if place % 2:
                    t.abort()
        self.assertEqual(sorted(t.number for t in open_ones if t.number),
                         [1, 2, 3, 4])
        self.assertEqual(self.found(), sum(
            (entries(at, at + 40) for at in range(0, 800, 200)), []))

    def test_what_isnt_committed_is_in_the_way(self) -> None:
        self.new()
        with gist.open(self.path) as index:
            with index.transaction() as one, index.transaction() as other:
                one.insert(7, (0, 0, 10, 10))
                with self.assertRaises(gist.Busy) as it:
                    other.overlap((5, 5, 6, 6))
                self.assertEqual(it.exception.session, one.session)
                with self.assertRaises(gist.Busy):
                    other.insert(7, (0, 0, 10, 10))
                one.abort()
                self.assertEqual(list(other.overlap((5, 5, 6, 6))), [])

    def test_retry(self) -> None:
        self.new()
        with gist.open(self.path) as index:
            other = index.transaction()
            other.insert(7, (0, 0, 10, 10))
            tries = []

            def work(t: gist.Transaction) -> int:
                tries.append(t)
                if len(tries) == 3:
                    other.commit()
                return t.overlap((0, 0, 1, 1)).count

            self.assertEqual(index.retry(work), 1)
            self.assertEqual([t.number for t in tries], [None, None, 2])
            with index.reading() as t, self.assertRaises(gist.Busy):
                t.overlap(PLANE)
                index.retry(lambda u: u.insert(9, (0, 0, 1, 1)), tries=2)
            with self.assertRaises(ValueError):
                index.retry(lambda u: None, tries=0)

    def test_retry_is_bound_by_time(self) -> None:
        self.new()
        with gist.open(self.path) as index, index.transaction() as t:
            t.insert(7, (0, 0, 10, 10))
            start = time.monotonic()
            with self.assertRaises(gist.Busy):
                index.retry(lambda u: u.overlap(PLANE), reading=True,
                            tries=None, within=0.3)
            self.assertTrue(0.3 <= time.monotonic() - start < 5)

    def test_retry_of_a_reader(self) -> None:
        self.new()
        with gist.open(self.path) as index:
            self.assertIs(index.retry(type, reading=True), gist.Reader)
            self.assertIs(index.retry(type), gist.Transaction)

    def test_search_waits_for_others(self) -> None:
        self.new()
        self.fill(1, 9)
        with gist.open(self.path) as index:
            self.assertEqual(list(index.search(PLANE)), entries(1, 9))
            held = [index.transaction() for _ in range(gist.SESSIONS)]
            held[0].insert(9, box_of(9))

            def end_all() -> None:
                for at, t in enumerate(held):
                    time.sleep(0.05)
                    if at:
                        t.abort()
                time.sleep(0.2)
                held[0].commit()

            ending = threading.Thread(target=end_all)
            ending.start()
            self.assertEqual(list(index.search(PLANE)), entries(1, 10))
            ending.join()

    def test_an_ended_transaction_asks_nothing(self) -> None:
        self.new()
        with gist.open(self.path) as index:
            with index.transaction() as t:
                t.commit()
                with index.transaction() as other:
                    self.assertEqual(t.session, 0)
                    for call in (lambda: t.insert(1, (0, 0, 1, 1)),
                                 lambda: t.insert_many(entries(1, 2)),
                                 lambda: t.overlap(PLANE), t.commit, t.abort):
                        with self.assertRaises(gist.NoTransaction):
                            call()
                    self.assertEqual(list(other.overlap(PLANE)), [])
