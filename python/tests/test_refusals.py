"""Each refusal, by the program if a script can meet it."""

import os
import pickle
import re
import struct
import threading
from contextlib import contextmanager
from typing import Any, Callable, Iterator, List, Tuple, Type

import gist
from gist._program import Call
from gist._refusals import refusal
from tests import PLANE, REPOSITORY, Case, entries


class Refusals(Case):
    """Refusals of calls: nothing has changed, and the transaction goes on."""

    def test_names_and_numbers(self) -> None:
        table = re.findall(r"^\| (\d+) \| `([a-z ]+?)(?: T)?` \|",
                           (REPOSITORY / "docs/SCRIPT.md").read_text(), re.M)
        self.assertEqual(len(table), 21)
        header = (REPOSITORY / "c/gist_client.h").read_text()
        for number, text in table:
            name = text.title().replace(" ", "")
            it = refusal(f"{number} {text}".encode())
            self.assertIs(type(it), getattr(gist, name))
            self.assertEqual(it.args, (text,))
            assert isinstance(it, gist.Refused)
            self.assertEqual(it.number, int(number))
            # (what to do about it)
            self.assertRegex(str(it), f"^{text}: [a-z].{{8,}}")
            in_c = f"GIST_{text.upper().replace(' ', '_')}"
            self.assertRegex(header, rf"\b{in_c} = {number}, ")
        later = refusal(b"22 something new")
        self.assertIs(type(later), gist.Refused)
        assert isinstance(later, gist.Refused)
        self.assertEqual(later.number, 22)
        self.assertEqual(str(later), "something new")

    def test_of_entries(self) -> None:
        self.new()
        with gist.open(self.path) as index, index.transaction() as t:
            t.insert(7, (0, 0, 10, 10))
            with self.assertRaises(gist.Present):
                t.insert(7, (0, 0, 10, 10))
            with self.assertRaises(gist.Absent):
                t.delete(8, (0, 0, 10, 10))
            for box in ((1, 0, 0, 0), (0, 1, 0, 0)):
                with self.assertRaises(gist.BadBox):
                    t.insert(9, box)
                with self.assertRaises(gist.BadBox):
                    t.within(box)
            self.assertEqual(list(t.overlap(PLANE)), [(7, (0, 0, 10, 10))])

    def test_of_many(self) -> None:
        self.new()
        with gist.open(self.path) as index:
            with self.assertRaises(gist.Present) as it:
                with index.transaction() as t:
                    t.insert_many(entries(0, 150) + entries(140, 160))
            self.assertEqual(it.exception.place, 150)
            with index.transaction() as t:
                with self.assertRaises(gist.Absent) as that:
                    t.delete_many(entries(0, 1))
            self.assertEqual(that.exception.place, 0)
        self.assertEqual(self.found(), [])

    def test_of_tables(self) -> None:
        self.new()
        with gist.open(self.path) as index, index.transaction() as t:
            for at in range(16):
                t.overlap((at, at, at, at))
            with self.assertRaises(gist.PredicatesFull):
                t.overlap((16, 16, 16, 16))
            t.overlap((3, 3, 3, 3))
            t.insert_many(entries(100, 612))
            with self.assertRaises(gist.ClaimsFull):
                t.insert(1, (0, 0, 1, 1))
            t.abort()

    def test_of_pages(self) -> None:
        self.new(8, 4)
        with gist.open(self.path) as index, index.transaction() as t:
            with self.assertRaises(gist.PagesFull) as it:
                t.insert_many(entries(0, 100))
            place = it.exception.place or 0
            self.assertGreater(place, 8)
            self.assertEqual(list(t.overlap(PLANE))[:place],
                             entries(0, place))

    def test_of_sessions(self) -> None:
        """What this client doesn't ask, by lines of one's own."""
        self.new()
        with gist.open(self.path) as index:
            def ask(lines: bytes) -> bytes:
                return index._program.exchange(Call(lines))

            for line, answer in (
                    (b"1 COMMIT", b"1 refused 1 no transaction"),
                    (b"1 BEGIN", b"1 ok"),
                    (b"1 BEGIN", b"1 refused 2 in transaction"),
                    (b"9 BEGIN", b"9 refused 15 bad session"),
                    (b"1 INSERT 18446744073709551616 0 0 1 1", b"line 6 bad"),
                    (b"1 INSERT -1 0 0 1 1", b"line 7 bad"),
                    (b"1 INSERT 1 5 0 1 1", b"1 refused 6 bad box"),
                    (b" " * 1025, b"line 9 bad"),
                    (b"1 INSERT %01000d 0 0 1 1" % 1, b"1 inserted"),
                    (b"1 INSERT %01020d 0 0 1 1" % 2, b"line 11 bad"),
                    (b"1 ABORT", b"1 aborted")):
                self.assertEqual(ask(line + b"\n"), answer + b"\n")

    def test_of_history(self) -> None:
        self.new()
        with open(self.path, "r+b") as file:
            # (the log's first record: the last commit has the last number)
            file.seek(136 * 512)
            file.write(struct.pack(">IBQQIQ", 29, 5, 2 ** 64 - 1, 0, 2, 1))
        with gist.open(self.path) as index:
            for _ in range(gist.SESSIONS + 1):
                # (none of them keeps its session)
                with self.assertRaises(gist.HistoryFull):
                    index.transaction()
                with self.assertRaises(gist.HistoryFull):
                    index.reading()


class Openings(Case):
    """Refusals of the file, with the sentence that says why."""

    def refuses(self, kind: Type[gist.Refused], sentence: str,
                **more: Any) -> None:
        with self.assertRaises(kind) as it:
            gist.open(self.path, **more)
        self.assertEqual(it.exception.status, 1)
        self.assertRegex(it.exception.sentence, sentence)
        if not more:
            with self.assertRaisesRegex(kind, sentence):
                list(gist.dump(self.path))

    def test_no_file(self) -> None:
        """The system's exceptions are raised, and no program is started."""
        nothing, path = self.folder / "nothing", self.folder / "no/places"
        asked: List[Tuple[Callable[..., object], Tuple[int, ...]]] = [
            (gist.open, ()), (gist.stat, ()), (gist.verify, ()),
            (gist.dump, ()), (gist.format, (8,))]
        for call, words in asked:
            with self.assertRaises(FileNotFoundError) as it:
                call(path, *words, program=nothing)
            self.assertEqual(it.exception.filename, str(path))
            with self.assertRaises(IsADirectoryError):
                call(self.folder, *words, program=nothing)
        self.new()
        self.path.chmod(0)
        with self.without_rights():
            for call, words in asked:
                with self.assertRaises(PermissionError):
                    call(self.path, *words, program=nothing)

    @contextmanager
    def without_rights(self) -> Iterator[None]:
        """Not as root, which may read and write every file."""
        user = os.geteuid()
        self.folder.chmod(0o755)
        try:
            if user == 0:
                os.seteuid(65534)
            yield
        finally:
            os.seteuid(user)

    def test_in_use(self) -> None:
        self.new()
        with gist.open(self.path) as index:
            self.refuses(gist.InUse, "in use")
            calls: List[Callable[[], object]] = [
                lambda: gist.format(self.path, 8, overwrite=True),
                lambda: gist.verify(self.path), lambda: gist.stat(self.path),
                lambda: gist.open(self.path, wait=0.2)]
            for call in calls:
                with self.assertRaisesRegex(gist.Device, "in use"):
                    call()
            with index.transaction() as t:
                t.insert(1, (0, 0, 1, 1))
            closing = threading.Timer(0.3, index.close)
            closing.start()
            gist.open(self.path, wait=10).close()
            closing.join()
        self.assertEqual(self.found(), [(1, (0, 0, 1, 1))])

    def test_no_index(self) -> None:
        self.path.write_bytes(bytes(2048000))
        self.refuses(gist.TooSmall, "small|short|cut")
        self.path.write_bytes(bytes(512 * 16776))
        self.refuses(gist.NotFormatted, ": [a-z]|^[a-z]")

    def test_an_older_index(self) -> None:
        self.new()
        with open(self.path, "r+b") as file:
            file.write(b"GISTRT01")
        self.refuses(gist.OldVersion, "older version; gist migrate")

    def test_another_index(self) -> None:
        self.new()
        with open(self.path, "r+b") as file:
            file.seek(512 + 6)
            file.write(b"\0\2")
        self.refuses(gist.BadParameter, "another kind of keys")

    def test_damage(self) -> None:
        self.new()
        with gist.open(self.path) as index, index.transaction() as t:
            t.insert(1, (0, 0, 1, 1))
        # (an opening writes its page, and empties the log)
        self.assertEqual(len(self.found()), 1)
        with open(self.path, "r+b") as file:
            file.seek(16656 * 512 + 16)
            file.write(b"\0\0\0\2")
        self.refuses(gist.Damaged, "damaged: page 2")

    def test_memory(self) -> None:
        self.new()
        self.refuses(gist.Memory, "memory", frames=4096,
                     program=self.limited("RLIMIT_AS", 8 << 20))

    def test_wrong_numbers(self) -> None:
        for pages, fanout in ((7, 4), (65537, 4), (8, 3), (8, 101), (-8, 4)):
            with self.assertRaisesRegex(ValueError, "an integer from"):
                gist.format(self.path, pages, fanout)
        for wrong in ("8", 8.0, None):
            with self.assertRaises(TypeError):
                gist.format(self.path, wrong)  # type: ignore[arg-type]
        self.assertFalse(self.path.exists())
        self.new()
        for frames in (15, 4097):
            with self.assertRaisesRegex(ValueError, "from 16 to 4096"):
                gist.open(self.path, frames)
        with self.assertRaises(TypeError):
            gist.open(self.path, "many")  # type: ignore[arg-type]

    def test_words_of_the_end(self) -> None:
        for status, told in (
                (-9, "because it was killed by SIGKILL"),
                (-200, "because it was killed by signal 200"),
                (7, "because it failed, with status 7"),
                (0, "though the index wasn't closed")):
            self.assertEqual(str(gist.Ended(status, "")),
                             f"the program ended {told}")
        self.assertRegex(str(gist.Ended(3, "why")), "status 3: why$")
        for fault in (gist.Ended(3, "why"), refusal(b"3 present", place=7)):
            self.assertEqual(str(pickle.loads(pickle.dumps(fault))),
                             str(fault))
