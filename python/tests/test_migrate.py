"""Indexes of the format's first version, in new files."""

import base64
import contextlib
import io
import lzma
import os
from pathlib import Path

import gist
from gist.__main__ import main
from gist._tree import live_entries
from tests import REPOSITORY, Case

#: Files of version 1, each with its tree as a program of that version has
#: printed it.
KEPT = REPOSITORY / "trials" / "version1"


class Migration(Case):
    def setUp(self) -> None:
        super().setUp()
        self.old = self.folder / "places.old"

    def unpack(self, name: str) -> str:
        """Unpacks a file of version 1, and returns its tree."""
        packed = base64.b64decode((KEPT / f"{name}.xz.base64").read_bytes())
        self.old.write_bytes(lzma.decompress(packed))
        return (KEPT / f"{name}.dump").read_text()

    def refuses(self, fault: type, pattern: str, **more: object) -> None:
        """A migration is refused so, and neither file is another then."""
        before = [self.read(it) for it in (self.old, self.path)]
        with self.assertRaisesRegex(fault, pattern):
            gist.migrate(self.old, self.path, **more)  # type: ignore
        after = [self.read(it) for it in (self.old, self.path)]
        self.assertTrue(before == after)

    def read(self, path: Path) -> bytes:
        return path.read_bytes() if path.exists() else b"none"

    def test_each_kind(self) -> None:
        for name in ("fresh", "log", "open", "both", "full"):
            with self.subTest(name):
                tree = self.unpack(name)
                was = self.old.read_bytes()
                self.path.unlink(missing_ok=True)
                it = gist.migrate(self.old, self.path)
                first = tree.split("\n")[0].split(" ")
                self.assertEqual(it.commits, int(first[1]))
                self.assertEqual(it.used, int(first[3]))
                self.assertTrue(self.old.read_bytes() == was)
                self.assertEqual(gist.verify(self.path).commits, it.commits)
                self.assertEqual(sorted(live_entries(gist.dump(self.path))),
                                 sorted(live_entries(tree.split("\n")[:-1])))
                with gist.open(self.path) as index:
                    with index.transaction() as t:
                        t.delete_many(list(t.overlap((0, 0, 99, 99))))
                self.assertEqual(gist.verify(self.path).commits,
                                 it.commits + 1)

    def test_what_a_file_holds_is_kept(self) -> None:
        self.unpack("open")
        self.new(16, 4)
        self.fill(0, 3)
        self.refuses(FileExistsError, "overwrite=True")
        it = gist.migrate(self.old, self.path, overwrite=True)
        self.assertEqual((it.commits, len(self.found())), (2, 3))

    def test_one_file(self) -> None:
        self.unpack("open")
        self.path = self.old
        self.refuses(FileExistsError, "overwrite=True")
        self.refuses(gist.InUse, "in use", overwrite=True)

    def test_a_file_in_use(self) -> None:
        self.unpack("open")
        self.new(16, 4)
        with gist.open(self.path):
            self.refuses(gist.InUse, "places.gist: .* in use", overwrite=True)

    def test_what_is_refused(self) -> None:
        self.refuses(FileNotFoundError, "places.old")
        self.old.write_bytes(b"")
        self.refuses(gist.TooSmall, "shorter")
        self.unpack("open")
        with open(self.old, "r+b") as file:
            file.write(b"GISTRT02")
        self.refuses(gist.NotFormatted, "no index")
        self.unpack("open")
        with open(self.old, "r+b") as file:
            file.seek(512 + 6)
            file.write(b"\0\2")
        self.refuses(gist.BadParameter, "another kind of keys")
        self.unpack("open")
        os.truncate(self.old, 512 * 4240)
        self.refuses(gist.TooSmall, "shorter")
        self.unpack("log")
        with open(self.old, "r+b") as file:
            for body in 40, 2120:
                file.seek(512 * body)
                file.write(b"\xff")
        self.refuses(gist.Damaged, "damaged")
        self.refuses(gist.ProtocolError, "as the index was migrated",
                     program=self.answering(b"", more=b"migrated 1\n"))

    def test_the_command(self) -> None:
        self.unpack("both")
        told = io.StringIO()
        with contextlib.redirect_stdout(told):
            status = main(["migrate", str(self.old), str(self.path)])
        self.assertEqual((status, told.getvalue()),
                         (0, "migrated commits 200 used 43\n"))
