"""The index in process: only where GIST_TESTED_LIBRARY names the library.

The other tests of calls run over it too then, but for those that stop or end
the program that has the index.
"""

import contextlib
import gc
import os
import random
import signal
import threading
import time
import unittest
import unittest.mock
import warnings
from typing import List, Type

import gist
from tests import PLANE, PROGRAM, Case, box_of, entries, rows

# A signal handler within a call of the library, which is made to last.
HANDLED = """
import contextlib, os, signal, sys, gist
from gist._library import Library
index = gist.open(sys.argv[1])
held = index.transaction()
def handler(*_):
    try:
        {call}
        print("handled")
    except RuntimeError as fault:
        print(fault)
signal.signal(signal.SIGTERM, handler)
search = Library._found
def kills(*words):
    os.kill(os.getpid(), signal.SIGTERM)
    return search(*words)
Library._found = kills
try:
    with index.transaction() as t:
        t.insert(1, (0, 0, 1, 1))
        t.overlap((0, 0, 1, 1))
        Library._found = search
    print("committed", t.number)
except gist.Ended as fault:
    print(fault)
index.close()
"""


class Interrupted(Exception):
    """What the tests' signal handler raises."""


def interrupt(*_: object) -> None:
    raise Interrupted


class Choice(Case):
    """Which of the two has an index."""

    def is_embedded(self, **words: object) -> bool:
        with gist.open(self.path, **words) as index:  # type: ignore[arg-type]
            self.assertEqual(index.search(PLANE).count, 0)
            return index.pid == os.getpid()

    def test_default(self) -> None:
        self.new()
        self.assertTrue(self.is_embedded())
        self.assertTrue(self.is_embedded(embedded=True))
        self.assertFalse(self.is_embedded(embedded=False))
        self.assertFalse(self.is_embedded(program=PROGRAM))
        with unittest.mock.patch.dict(os.environ, GIST_LIBRARY=""):
            self.assertFalse(self.is_embedded())
            with self.assertRaises(OSError):
                gist.open(self.path, embedded=True)
        for wrong in ("/nowhere.so", "libc.so.6"):
            with unittest.mock.patch.dict(os.environ, GIST_LIBRARY=wrong):
                with self.assertRaises(OSError):
                    gist.open(self.path)
                self.assertFalse(self.is_embedded(embedded=False))

    def test_without_a_program(self) -> None:
        with unittest.mock.patch("gist._files.words_of",
                                 side_effect=FileNotFoundError):
            gist.format(self.path, 64, 16, dimensions=3)
            with gist.open(self.path) as index, index.transaction() as t:
                self.assertEqual(index.dimensions, 3)
                t.insert(7, (0, 0, 0, 1, 1, 1))
            self.assertEqual(gist.stat(self.path)[:6], (64, 16, 3, 2, 1, 1))
            with self.assertRaises(FileExistsError):
                gist.format(self.path, 64)
            with self.assertRaises(FileNotFoundError):
                next(gist.dump(self.path))
            self.path.write_bytes(b"no index" * 2000000)
            with self.assertRaises(gist.NotFormatted):
                gist.verify(self.path)

    def test_refused(self) -> None:
        self.new()
        with gist.open(self.path):
            for embedded in (True, False):
                with self.assertRaises(gist.InUse):
                    gist.open(self.path, embedded=embedded)
        with gist.open(self.path, embedded=False):
            with self.assertRaises(gist.InUse) as caught:
                gist.open(self.path)
        self.assertIn("in use", str(caught.exception))
        self.assertEqual(caught.exception.status, 1)
        os.truncate(self.path, 10000)
        with self.assertRaises(gist.TooSmall):
            gist.open(self.path)


class Found(Case):
    """What a search finds."""

    def test_of_both(self) -> None:
        self.new()
        self.fill(0, 700)
        told = []
        for embedded in (True, False):
            with gist.open(self.path, embedded=embedded) as index:
                with index.reading() as t:
                    hits = t.overlap(PLANE)
                    first = [next(hits), next(hits)]
                    few = t.overlap_each([PLANE, box_of(5), PLANE])
                    told.append((len(hits), bool(hits), first, list(hits),
                                 [list(it) for it in few]))
                    self.assertFalse(t.equal((0, 0, 0, 0)))
        self.assertEqual(told[0], told[1])
        self.assertEqual(told[0][2] + told[0][3], entries(0, 700))

    def test_numpy(self) -> None:
        self.new()
        self.fill(0, 300)
        for embedded in (True, False):
            with gist.open(self.path, embedded=embedded) as index:
                hits = index.search(PLANE)
            next(hits)
            try:
                import numpy
            except ImportError:
                with self.assertRaises(ImportError):
                    hits.to_numpy()
                continue
            them = hits.to_numpy()
            self.assertEqual(list(them["row"]), list(range(300)))
            self.assertEqual(them.dtype.names, ("row", "x1", "y1", "x2", "y2"))
            self.assertEqual([tuple(it)[1:] for it in them],
                             [tuple(box_of(row)) for row in range(300)])
            self.assertEqual(them["x2"].dtype, numpy.int32)
        self.assertEqual(len(list(hits)), 299)


class Threads(Case):
    """Threads that share an index."""

    def in_threads(self, count: int, work: object) -> None:
        faults: List[BaseException] = []

        def done(number: int) -> None:
            try:
                work(number)  # type: ignore[operator]
            except BaseException as fault:
                faults.append(fault)

        them = [threading.Thread(target=done, args=(number,))
                for number in range(count)]
        for it in them:
            it.start()
        for it in them:
            it.join(60)
        self.assertEqual(faults, [])

    def test_commits(self) -> None:
        self.new(1024)
        numbers: List[int] = []
        with gist.open(self.path) as index:
            def work(thread: int) -> None:
                for row in range(1000 * thread, 1000 * thread + 60):
                    with index.transaction(wait=20) as t:
                        t.insert(row, box_of(row))
                        self.assertEqual(rows(t.equal(box_of(row))), [row])
                    numbers.append(t.number or 0)
            self.in_threads(12, work)
        self.assertEqual(sorted(numbers), list(range(1, 721)))
        self.assertEqual(len(self.found()), 720)

    def test_close_while_others_call(self) -> None:
        self.new(1024)
        for _ in range(10):
            index = gist.open(self.path)
            known: List[int] = []

            def work(thread: int) -> None:
                if thread == 0:
                    time.sleep(0.02)
                    index.close()
                    return
                with contextlib.suppress(gist.Ended):
                    for row in range(10 ** 6):
                        with index.transaction(wait=5) as t:
                            t.overlap(box_of(thread))
                        known.append(t.number or 0)

            self.in_threads(7, work)
            self.assertTrue(known and 0 not in known)
            with self.assertRaises(gist.Ended):
                index.search(PLANE)

    def test_forks(self) -> None:
        self.new(1024)
        with gist.open(self.path) as index:
            def work(thread: int) -> None:
                if thread:
                    for row in range(100 * thread, 100 * thread + 100):
                        with index.transaction(wait=20) as t:
                            t.insert(row, box_of(row))
                    return
                for _ in range(50):
                    with warnings.catch_warnings():
                        warnings.simplefilter("ignore")
                        child = os.fork()
                    if child == 0:
                        signal.alarm(5)
                        try:
                            index.search(PLANE)
                        except gist.Ended:
                            index.close()
                            os._exit(0)
                        os._exit(1)
                    self.assertEqual(os.waitpid(child, 0)[1], 0)
            self.in_threads(5, work)
        self.assertEqual(len(self.found()), 400)


class Moments(Case):
    """Signals, and what is forgotten."""

    def test_random_moments(self) -> None:
        """However it goes, no session is lost, and commits are known."""
        before = signal.signal(signal.SIGALRM, interrupt)
        self.addCleanup(signal.signal, signal.SIGALRM, before)
        self.addCleanup(signal.setitimer, signal.ITIMER_REAL, 0)
        self.new()
        known = []
        with gist.open(self.path) as index, warnings.catch_warnings():
            warnings.simplefilter("ignore")
            for trial in range(2000):
                t = None
                try:
                    signal.setitimer(signal.ITIMER_REAL,
                                     random.uniform(1e-6, 6e-4))
                    with index.reading() as reader:
                        reader.overlap((-9, -9, -9, -9))
                    with index.transaction() as t:
                        t.insert(trial, box_of(trial))
                    signal.setitimer(signal.ITIMER_REAL, 0)
                except Interrupted:
                    pass
                signal.setitimer(signal.ITIMER_REAL, 0)
                if t and t.number:
                    known.append(trial)
                held = [index.transaction() for _ in range(gist.SESSIONS)]
                for one in held:
                    one.abort()
        self.assertEqual([row for row, _ in self.found()], known)

    def handled(self, call: str) -> List[str]:
        self.new()
        return self.run_python(HANDLED.format(call=call),
                               self.path).splitlines()

    def test_handler_that_closes(self) -> None:
        self.assertEqual(self.handled("index.close()"), [
            "handled", "the index was closed by a signal handler within a "
            "call; whether that call was done isn't known"])
        self.assertEqual(self.found(), [])

    def test_handler_that_calls(self) -> None:
        for call in ("held.abort()", "index.transaction()", "held.commit()"):
            with self.subTest(call):
                told, committed = self.handled(call)
                self.assertIn("can only close the index", told)
                self.assertEqual(committed, "committed 1")
                self.path.unlink()

    def forgets(self, what: Type[object]) -> None:
        with self.assertWarns(ResourceWarning):
            index = gist.open(self.path)
            held: List[object] = [index.transaction()]
            if what is gist.Index:
                del index
            held.clear()
            gc.collect()
        if what is gist.Transaction:
            self.assertEqual(index.search(PLANE).count, 0)
            index.close()

    def test_forgotten(self) -> None:
        self.new()
        self.forgets(gist.Transaction)
        self.forgets(gist.Index)
        gist.open(self.path).close()


if not os.environ["GIST_LIBRARY"]:
    del Choice, Found, Threads, Moments

if __name__ == "__main__":
    unittest.main()
