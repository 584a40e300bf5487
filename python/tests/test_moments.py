"""Signals, forks, ends and what is forgotten, at awkward moments.

What went wrong here once hung for ever: each test has a clock of seconds.
"""

import contextlib
import gc
import os
import random
import signal
import threading
import time
import unittest.mock
import warnings
from typing import Callable, Iterator, List, Optional

import gist
from tests import PLANE, Case, box_of, entries

# A signal handler, come in the middle of a call, that calls the index.
HANDLED = """
import contextlib, os, signal, sys, threading, time, gist
index = gist.open(sys.argv[1])
held = index.transaction()
def handler(*_):
    try:
        {call}
        print("handled")
    except RuntimeError as fault:
        print(fault)
    {after}
signal.signal(signal.SIGTERM, handler)
os.kill(index.pid, signal.SIGSTOP)
def later():
    os.kill(os.getpid(), signal.SIGTERM)
    time.sleep(0.3)
    with contextlib.suppress(ProcessLookupError):
        os.kill(index.pid, signal.SIGCONT)
threading.Timer(0.3, later).start()
try:
    with index.transaction() as t:
        t.insert(1, (0, 0, 1, 1))
    print("committed", t.number)
except gist.Ended as fault:
    print(fault)
index.close()
"""


class Interrupted(Exception):
    """What the tests' signal handler raises."""


def interrupt(*_: object) -> None:
    raise Interrupted


class Moments(Case):
    """Interrupts of calls."""

    def setUp(self) -> None:
        super().setUp()
        before = signal.signal(signal.SIGALRM, interrupt)
        self.addCleanup(signal.signal, signal.SIGALRM, before)
        self.addCleanup(signal.setitimer, signal.ITIMER_REAL, 0)
        self.kept: List[Exception] = []
        self.new()

    @contextlib.contextmanager
    def broken_off(self, index: gist.Index) -> Iterator[None]:
        """Interrupts what is done here, and lets the program go on then."""
        os.kill(index.pid, signal.SIGSTOP)
        signal.setitimer(signal.ITIMER_REAL, 0.2)
        try:
            yield
        except Interrupted as fault:
            # (its traceback keeps what the call had)
            self.kept.append(fault)
        else:
            self.fail("it wasn't broken off")
        finally:
            os.kill(index.pid, signal.SIGCONT)

    def test_index_lives_on(self) -> None:
        with gist.open(self.path) as index:
            with index.transaction() as t:
                t.insert(1, (0, 0, 1, 1))
                with self.broken_off(index):
                    t.insert(2, (0, 0, 1, 1))
                # (it was written, and so is done)
                with self.assertRaises(gist.Present):
                    t.insert(2, (0, 0, 1, 1))
                with self.broken_off(index):
                    t.insert_many(entries(10, 110))
                self.assertEqual(t.overlap((0, 0, 1, 1)).count, 2)
        self.assertEqual(len(self.found()), 102)

    def test_long_answers(self) -> None:
        self.fill(0, 1000)
        with gist.open(self.path) as index, index.reading() as t:
            for moment in range(1, 20):
                signal.setitimer(signal.ITIMER_REAL, moment / 2000)
                with contextlib.suppress(Interrupted):
                    while True:
                        t.overlap(PLANE)
                self.assertEqual(list(t.equal(box_of(7))), entries(7, 8))

    def test_begin(self) -> None:
        with gist.open(self.path) as index:
            for _ in range(gist.SESSIONS + 1):
                with self.broken_off(index):
                    index.transaction()
            held = [index.transaction() for _ in range(gist.SESSIONS)]
            self.assertEqual(sorted(t.session for t in held),
                             list(range(1, 9)))

    def test_commit(self) -> None:
        with gist.open(self.path) as index:
            t = index.transaction()
            t.insert(1, (0, 0, 1, 1))
            with self.broken_off(index):
                t.commit()
            self.assertIsNone(t.number)
            self.assertEqual(t.commit(), 1)
            # (another one reads the answer)
            t = index.transaction()
            t.insert(2, (0, 0, 1, 1))
            with self.broken_off(index):
                t.commit()
            self.assertEqual(index.search(PLANE).count, 2)
            self.assertEqual(t.commit(), 2)
            t = index.transaction()
            t.insert(3, (0, 0, 1, 1))
            with self.broken_off(index):
                t.commit()
            with self.assertRaises(gist.NoTransaction):
                t.abort()
            self.assertEqual(t.number, 3)
            # (nobody asks, and yet it is known)
            for number, end in ((4, index.reading), (5, index.close)):
                t = index.transaction()
                t.insert(number, (0, 0, 1, 1))
                with self.broken_off(index):
                    t.commit()
                end()
                self.assertEqual(t.number, number)
            self.assertEqual(t.commit(), 5)
            with self.assertRaises(gist.NoTransaction):
                t.commit()
            self.assertEqual(t.number, 5)

    def test_commit_by_the_moment(self) -> None:
        """The signal comes just before a call of the system, or after it."""
        def interrupted(call: Callable[..., int], is_made: bool
                        ) -> Callable[..., int]:
            def instead(*words: object) -> int:
                if is_made:
                    call(*words)
                raise Interrupted
            return instead

        with gist.open(self.path) as index:
            number = 0
            for name in ("write", "readv"):
                for is_made in (False, True):
                    number += 1
                    t = index.transaction()
                    t.insert(number, (0, 0, 1, 1))
                    instead = interrupted(getattr(os, name), is_made)
                    with unittest.mock.patch(f"os.{name}", instead):
                        with self.assertRaises(Interrupted):
                            t.commit()
                    self.assertEqual(t.commit(), number)
        self.assertEqual(len(self.found()), 4)

    def test_block_left_before_its_end(self) -> None:
        """The signal comes as the block's end begins."""
        with gist.open(self.path) as index, warnings.catch_warnings():
            warnings.simplefilter("ignore")
            for begin in 4 * (index.reading, index.transaction):
                with unittest.mock.patch.object(gist.Reader, "__exit__",
                                                interrupt):
                    with self.assertRaises(Interrupted):
                        with begin() as t:
                            t.overlap(PLANE)
            held = [index.transaction() for _ in range(gist.SESSIONS)]
            self.assertEqual(len(held), gist.SESSIONS)
            with self.assertRaises(gist.NoTransaction):
                t.overlap(PLANE)

    def test_commit_at_the_end_of_a_block(self) -> None:
        """What is known of it afterwards is the transaction's number."""
        with gist.open(self.path) as index:
            going = threading.Timer(0.4, os.kill, (index.pid, signal.SIGCONT))
            with self.assertRaises(Interrupted):
                with index.transaction() as t:
                    t.insert(1, (0, 0, 1, 1))
                    os.kill(index.pid, signal.SIGSTOP)
                    signal.setitimer(signal.ITIMER_REAL, 0.2)
                    going.start()
            going.join()
            self.assertEqual((t.number, t.session), (1, 0))
            self.assertEqual(list(index.search(PLANE)), [(1, (0, 0, 1, 1))])

    def test_random_moments(self) -> None:
        """However it goes, no session is lost, and commits are known."""
        known = []
        with gist.open(self.path) as index, warnings.catch_warnings():
            warnings.simplefilter("ignore")
            for trial in range(300):
                t = None
                try:
                    signal.setitimer(signal.ITIMER_REAL,
                                     random.uniform(1e-5, 4e-3))
                    with index.reading() as reader:
                        reader.overlap((-9, -9, -9, -9))
                    with index.transaction() as t:
                        t.insert(trial, box_of(trial))
                    signal.setitimer(signal.ITIMER_REAL, 0)
                except Interrupted:
                    pass
                if t and t.number:
                    known.append(trial)
                held = [index.transaction() for _ in range(gist.SESSIONS)]
                for one in held:
                    one.abort()
        self.assertEqual([row for row, _ in self.found()], known)


class Handlers(Case):
    """Signal handlers that call the index within a call of their thread."""

    def handled(self, call: str, after: str = "pass") -> List[str]:
        self.new()
        return self.run_python(HANDLED.format(call=call, after=after),
                               self.path).splitlines()

    def test_close(self) -> None:
        self.assertEqual(self.handled("index.close()"), [
            "handled", "the index was closed by a signal handler within a "
            "call; whether that call was done isn't known"])
        self.assertLessEqual(len(self.found()), 1)

    def test_close_and_exit(self) -> None:
        self.assertEqual(self.handled("index.close()", "sys.exit(0)"),
                         ["handled"])
        self.assertLessEqual(len(self.found()), 1)

    def test_other_calls(self) -> None:
        for call in ("held.abort()", "index.transaction()", "held.commit()",
                     "[index.reading(wait=None) for _ in range(9)]"):
            with self.subTest(call):
                told, committed = self.handled(call)
                self.assertIn("can only close the index", told)
                self.assertEqual(committed, "committed 1")
                self.path.unlink()


class Waiting(Case):
    """Threads that wait for a session."""

    def ends(self, end: Callable[[gist.Index], object]) -> None:
        """Whether one that waits has Ended soon after an end."""
        self.new()
        index = gist.open(self.path)
        held = [index.transaction() for _ in range(gist.SESSIONS)]
        faults: List[Exception] = []

        def wait() -> None:
            try:
                index.transaction(wait=None)
            except Exception as fault:
                faults.append(fault)

        thread = threading.Thread(target=wait, daemon=True)
        thread.start()
        time.sleep(0.1)
        end(index)
        thread.join(5)
        self.assertEqual([type(it) for it in faults], [gist.Ended])
        with contextlib.suppress(gist.Ended):
            index.close()
        del held

    def test_for_a_closed_index(self) -> None:
        self.ends(gist.Index.close)

    def test_for_a_program_that_died(self) -> None:
        self.ends(lambda index: os.kill(index.pid, signal.SIGKILL))


class Forks(Case):
    """Processes that are forked while threads call the index."""

    def test_in_the_middle_of_calls(self) -> None:
        self.new()
        index = gist.open(self.path)
        is_over = threading.Event()

        def work() -> None:
            while not is_over.is_set():
                with index.reading(wait=5):
                    pass

        threads = [threading.Thread(target=work) for _ in range(9)]
        for thread in threads:
            thread.start()
        ends = [self.status_of_a_child(index) for _ in range(60)]
        is_over.set()
        for thread in threads:
            thread.join()
        index.close()
        self.assertEqual(ends, [0] * 60)

    @staticmethod
    def status_of_a_child(index: gist.Index) -> int:
        """What a child ends with: 0 if each call raises Ended at once."""
        child = os.fork()
        if child == 0:
            signal.alarm(3)
            status = 1
            try:
                for call in (index.transaction, index.reading,
                             lambda: index.transaction(wait=None)):
                    try:
                        call()
                        break
                    except gist.Ended:
                        continue
                else:
                    index.close()
                    status = 0
            finally:
                os._exit(status)
        return os.waitstatus_to_exitcode(os.waitpid(child, 0)[1])


class Forgotten(Case):
    """What nobody holds any more."""

    def test_index(self) -> None:
        self.new()
        index: Optional[gist.Index] = gist.open(self.path)
        assert index
        with index.transaction() as t:
            t.insert(1, (0, 0, 1, 1))
        with self.assertWarnsRegex(ResourceWarning, "index was forgotten"):
            index = None
            gc.collect()
        gist.open(self.path, wait=5).close()
        self.assertEqual(self.found(), [(1, (0, 0, 1, 1))])

    def test_transactions(self) -> None:
        self.new()
        with gist.open(self.path) as index:
            for row in range(2 * gist.SESSIONS):
                with self.assertWarnsRegex(ResourceWarning, "is given up"):
                    index.transaction().insert(row, (0, 0, 1, 1))
                    gc.collect()
            held = [index.transaction() for _ in range(gist.SESSIONS)]
            for row, t in enumerate(held):
                t.insert(row, (0, 0, 1, 1))
            with self.assertWarnsRegex(ResourceWarning, "is given up"):
                del t
                held.clear()
            # (all are aborted as one begins: none is in its way)
            with index.reading() as reader:
                self.assertEqual(len(reader.overlap(PLANE)), 0)

    def test_nothing_that_was_ended(self) -> None:
        self.new()
        with warnings.catch_warnings(record=True) as told:
            warnings.simplefilter("always")
            with gist.open(self.path) as index:
                with index.transaction() as t:
                    t.insert(1, (0, 0, 1, 1))
                index.reading().abort()
                index.transaction().commit()
                left = index.transaction()
            del left, index, t
            gc.collect()
        self.assertEqual([str(it.message) for it in told], [])

    def test_as_a_thread_waits(self) -> None:
        self.new()
        with gist.open(self.path) as index:
            held = [index.transaction() for _ in range(gist.SESSIONS)]
            timer = threading.Timer(0.2, held.clear)
            timer.start()
            with warnings.catch_warnings():
                warnings.simplefilter("ignore")
                index.transaction(wait=10).abort()
            timer.join()
