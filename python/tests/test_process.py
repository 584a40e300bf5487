"""The program as a process: its end, its pipes, and who shares it."""

import multiprocessing
import os
import signal
import subprocess
import sys
import threading
import time
import unittest.mock
from typing import Callable, List

import gist
from tests import PLANE, PROGRAM, REPOSITORY, Case, box_of, entries, rows

# Where the file's first ten pages end: no page after them can be written.
TEN_PAGES = 512 * 16648 + 10 * 4096

# A separate client, which is killed in the middle of a transaction.
KILLED = """
import os, signal, gist
index = gist.open({path!r})
with index.transaction() as t:
    t.insert(1, (0, 0, 1, 1))
t = index.transaction()
t.insert(2, (0, 0, 1, 1))
t.delete(1, (0, 0, 1, 1))
os.kill(os.getpid(), signal.SIGKILL)
"""

# Where the status of a program can't be had.
UNWAITED = """
import signal, gist
signal.signal(signal.SIGCHLD, signal.SIG_IGN)
gist.format({path!r}, 8)
with gist.open({path!r}) as index:
    with index.transaction() as t:
        t.insert(1, (0, 0, 1, 1))
    for call in (gist.open, gist.verify):
        try:
            call({path!r})
        except gist.InUse:
            print("in use")
try:
    gist.format({other!r}, 8, program="/bin/true")
except gist.ProtocolError:
    print("not formatted")
print(gist.verify({path!r}).entries)
"""


class Ends(Case):
    """How a program ends, and what is in the file then."""

    def test_killed_in_a_transaction(self) -> None:
        self.new()
        for first in range(0, 50, 10):
            index = gist.open(self.path)
            with index.transaction() as t:
                t.insert_many(entries(first, first + 10))
            with self.assertRaises(gist.Ended) as it:
                with index.transaction() as t, index.transaction() as u:
                    t.insert_many(entries(100, 120))
                    u.delete(*entries(first, first + 1)[0])
                    os.kill(index.pid, signal.SIGKILL)
                    u.insert(200, (0, 0, 1, 1))
            self.assertEqual(it.exception.status, -signal.SIGKILL)
            self.assertEqual(str(it.exception),
                             "the program ended because it was killed by "
                             "SIGKILL")
            with self.assertRaises(gist.Ended):
                index.transaction()
            index.close()
            self.assertEqual(self.found(), entries(0, first + 10))

    def test_client_killed_in_a_transaction(self) -> None:
        self.new()
        run = subprocess.run(
            [sys.executable, "-c", KILLED.format(path=str(self.path))],
            env={**os.environ, "PYTHONPATH": str(REPOSITORY / "python")})
        self.assertEqual(run.returncode, -signal.SIGKILL)
        # (its program may not have ended yet)
        gist.open(self.path, wait=30).close()
        self.assertEqual(self.found(), [(1, (0, 0, 1, 1))])

    def test_ignored_children(self) -> None:
        lines = UNWAITED.format(path=str(self.path),
                                other=str(self.folder / "other"))
        self.assertEqual(self.run_python(lines),
                         "in use\nin use\nnot formatted\n1\n")

    def test_closed(self) -> None:
        self.new()
        index = gist.open(self.path)
        t = index.transaction()
        t.insert(1, (0, 0, 1, 1))
        index.close()
        index.close()
        calls: List[Callable[[], object]] = [
            t.commit, t.abort, index.transaction, index.reading]
        for call in calls:
            with self.assertRaises(gist.Ended) as it:
                call()
            self.assertEqual(it.exception.status, 0)
        self.assertEqual(self.found(), [])

    def test_full_disk(self) -> None:
        self.new(2048, 100)
        program = self.limited("RLIMIT_FSIZE", TEN_PAGES)
        kept = 0
        with self.assertRaises(gist.Device) as it:
            with gist.open(self.path, program=program) as index:
                while kept < 20000:
                    with index.transaction() as t:
                        t.insert_many(entries(kept, kept + 100))
                    kept += 100
        self.assertIsNone(it.exception.status)
        self.assertGreater(kept, 0)
        found = len(self.found())
        self.assertIn(found, (kept, kept + 100))
        self.assertEqual(self.found(), entries(0, found))

    def test_after_a_fault_of_the_file(self) -> None:
        self.new(2048, 100)
        program = self.limited("RLIMIT_FSIZE", TEN_PAGES)
        index = gist.open(self.path, program=program)
        with self.assertRaises(gist.Device):
            for first in range(0, 20000, 100):
                with index.transaction() as t:
                    t.insert_many(entries(first, first + 100))
        with self.assertRaises(gist.Failed):
            index.transaction()
        with self.assertRaises(gist.GistError) as it:
            index.close()
        fault = it.exception
        assert isinstance(fault, (gist.Ended, gist.Device))
        self.assertEqual(fault.status, 1)
        self.assertNotEqual(fault.sentence, "")

    def test_no_program(self) -> None:
        self.new()
        for program in (self.folder / "nothing", self.folder):
            with self.assertRaises(OSError):
                gist.open(self.path, program=program)
        with unittest.mock.patch.dict(os.environ, GIST=str(self.folder)):
            with self.assertRaises(OSError):
                gist.format(self.folder / "other", 8)
        self.assertFalse((self.folder / "other").exists())

    def test_by_argument(self) -> None:
        with unittest.mock.patch.dict(os.environ, GIST=str(self.folder)):
            gist.format(self.path, 8, program=PROGRAM)
            gist.open(self.path, program=PROGRAM).close()
            self.assertEqual(len(list(gist.dump(self.path, PROGRAM))), 4)

    def test_launcher_builds_nothing(self) -> None:
        """One that isn't built finds the client's word, and says so."""
        launcher = self.folder / "launcher"
        launcher.write_text('#!/bin/sh\n[ -n "$GIST_NO_BUILD" ] || exit 0\n'
                            'echo "gist: build it: ./gist plain" >&2; exit 3')
        launcher.chmod(0o755)
        self.new()
        calls: List[Callable[[], object]] = [
            lambda: gist.open(self.path, program=launcher),
            lambda: gist.verify(self.path, launcher),
            lambda: gist.format(self.folder / "new", 8, program=launcher)]
        for call in calls:
            with self.assertRaisesRegex(gist.Ended, "3: build it: ./gist"):
                call()
        self.assertFalse((self.folder / "new").exists())

    def test_what_no_gist_answers(self) -> None:
        self.new()
        for lines in (b"0 what\n", b"0 refused x\n", b"0 ok\n1 ok\n", b"\n",
                      b"0 found x\n", b"1 refused 15 bad session\n"):
            with self.assertRaises(gist.ProtocolError):
                gist.open(self.path, program=self.answering(lines))
        for lines in (b"", b"0 refused 15 bad ses", b"0 found 5\n0 entry"):
            with self.assertRaises(gist.Ended) as it:
                gist.open(self.path, program=self.answering(lines, 3))
            self.assertEqual(it.exception.status, 3)
        with self.assertRaises(gist.Damaged) as that:
            gist.open(self.path, program=self.answering(
                b"refused 13 damaged\n", 1))
        self.assertEqual(that.exception.status, 1)

    def test_answer_of_another_session(self) -> None:
        self.new()
        lines = b"0 refused 15 bad session\n"
        program = self.answering(lines, more=b"2 ok\n")
        index = gist.open(self.path, program=program)
        with self.assertRaises(gist.ProtocolError):
            index.transaction()
        with self.assertRaises(gist.Ended):
            index.reading()


class Pipes(Case):
    """Exchanges that are held up or broken off."""

    def test_ctrl_c_doesnt_reach_the_program(self) -> None:
        self.new()
        with gist.open(self.path) as index, index.transaction():
            self.assertNotEqual(os.getpgid(index.pid), os.getpgid(0))

    def test_reader_that_stops(self) -> None:
        """It holds the program up, and nothing else."""
        self.new(512, 100)
        self.fill(0, 2000)
        asked = b"1 BEGIN\n" + b"1 OVERLAP %d %d %d %d\n" % PLANE * 100
        with open(self.folder / "lines", "w+b") as lines:
            lines.write(asked)
            lines.seek(0)
            run = subprocess.Popen([PROGRAM, "run", self.path], stdin=lines,
                                   stdout=subprocess.PIPE)
            time.sleep(0.3)
            self.assertIsNone(run.poll())
            answers, _ = run.communicate()
        self.assertEqual(run.returncode, 0)
        self.assertEqual(answers.count(b"1 entry "), 200000)

    def test_reader_that_leaves(self) -> None:
        self.new(512, 100)
        self.fill(0, 2000)
        run = subprocess.Popen([PROGRAM, "run", self.path],
                               stdin=subprocess.PIPE, stdout=subprocess.PIPE)
        assert run.stdin and run.stdout
        # (more answers than a pipe holds)
        run.stdin.write(b"1 BEGIN\n1 DELETE 0 0 0 5 0\n"
                        + b"1 OVERLAP %d %d %d %d\n" % PLANE * 10)
        run.stdin.flush()
        self.assertEqual(run.stdout.readline(), b"1 ok\n")
        run.stdout.close()
        run.stdin.close()
        self.assertEqual(run.wait(), 1)
        self.assertEqual(len(self.found()), 2000)

    def test_forked_process_doesnt_keep_it(self) -> None:
        self.new()
        index = gist.open(self.path)
        with index.transaction() as t:
            t.insert(1, (0, 0, 1, 1))
            child = multiprocessing.get_context("fork").Process(
                target=self.in_child, args=(t,))
            child.start()
            # (while the child lives, and holds what it was given)
            t.insert(2, (0, 0, 1, 1))
        index.close()
        child.join()
        self.assertEqual(child.exitcode, 0)
        child.close()
        self.assertEqual(rows(iter(self.found())), [1, 2])

    @staticmethod
    def in_child(t: gist.Transaction) -> None:
        try:
            t.insert(9, (0, 0, 1, 1))
        except gist.Ended:
            time.sleep(1)
            return
        sys.exit(1)


class Threads(Case):
    """Threads share an index, and each has its own transactions."""

    def test_twelve_threads_over_eight_sessions(self) -> None:
        self.new(2048, 100)
        faults: List[object] = []

        def work(start: int) -> None:
            try:
                for first in range(start, start + 60, 20):
                    with index.transaction(wait=60) as t:
                        for row in range(first, first + 10):
                            t.insert(row, box_of(row))
                        t.insert_many(entries(first + 10, first + 20))
                        left, right = 10 * first, 10 * first + 195
                        found = t.overlap((left, -10 ** 6, right, 10 ** 6))
                        if list(found) != entries(first, first + 20):
                            faults.append(f"{first}: other entries")
            except BaseException as fault:
                faults.append(fault)

        with gist.open(self.path) as index:
            threads = [threading.Thread(target=work, args=(1000 * at,))
                       for at in range(12)]
            for thread in threads:
                thread.start()
            for thread in threads:
                thread.join()
        self.assertEqual(faults, [])
        self.assertEqual(self.found(), sum(
            (entries(1000 * at, 1000 * at + 60) for at in range(12)), []))

    def test_counter_by_retry(self) -> None:
        """Each adds one to a number; that none is lost shows isolation."""
        self.new()
        with gist.open(self.path) as index:
            with index.transaction() as t:
                t.insert(0, (0, 0, 0, 0))

            def add(t: gist.Transaction) -> None:
                (row, box), = t.overlap((0, 0, 0, 0))
                t.delete(row, box)
                t.insert(row + 1, box)

            def work() -> None:
                for _ in range(5):
                    index.retry(add, tries=1000, wait=60)

            threads = [threading.Thread(target=work) for _ in range(4)]
            for thread in threads:
                thread.start()
            for thread in threads:
                thread.join()
        self.assertEqual(self.found(), [(20, (0, 0, 0, 0))])

    def test_waiting_for_a_session(self) -> None:
        self.new()
        with gist.open(self.path) as index:
            held = [index.reading() for _ in range(gist.SESSIONS)]
            with self.assertRaises(gist.NoSession):
                index.transaction(wait=0.05)
            timer = threading.Timer(0.1, held[3].abort)
            timer.start()
            with index.transaction(wait=60) as t:
                self.assertEqual(t.session, 4)
            timer.join()
