"""The lines of the documents, run unchanged, and the wheel."""

import importlib.util
import io
import os
import re
import subprocess
import sys
import tarfile
import tempfile
import zipfile
from pathlib import Path
from typing import List, Tuple

import gist
import wheel_of_gist
from tests import PROGRAM, REPOSITORY, Case

PAGES = ("docs/CLIENTS.md", "README.md")
COMPILE = ["cc", "-std=c11", "-Wall", "-Wextra", "-Werror",
           f"-I{REPOSITORY / 'c'}"]
CLIENT = [str(it) for it in sorted(REPOSITORY.glob("c/gist_*.c"))]


def blocks(page: str, language: str) -> List[Tuple[str, str]]:
    """The fenced blocks of a page in a language, and what each prints.

    That is the next fenced block, if it has no language.
    """
    text = (REPOSITORY / page).read_text()
    found = re.findall(r"^```(\w*)\n(.*?)^```$", text, re.M | re.S)
    return [(lines, "" if next_name else after)
            for (name, lines), (next_name, after)
            in zip(found, [*found[1:], ("none", "")]) if name == language]


class Documents(Case):
    """What a reader copies works."""

    def run_in_folder(self, *words: str) -> str:
        """What a command prints in a separate folder."""
        with tempfile.TemporaryDirectory(dir=self.folder) as folder:
            run = subprocess.run(
                words, cwd=folder, stdout=subprocess.PIPE, timeout=60,
                env={**os.environ, "GIST": PROGRAM,
                     "PYTHONPATH": str(REPOSITORY / "python"),
                     "PIP_ROOT_USER_ACTION": "ignore"})
        self.assertEqual(run.returncode, 0)
        return run.stdout.decode()

    def test_lines_of_python(self) -> None:
        self.assertNotEqual(blocks(PAGES[0], "python"), [])
        for page in PAGES:
            for lines, printed in blocks(page, "python"):
                self.assertEqual(
                    self.run_in_folder(sys.executable, "-c", lines), printed)

    def test_lines_of_c(self) -> None:
        self.assertNotEqual(blocks(PAGES[0], "c"), [])
        program = str(self.folder / "program")
        source = self.folder / "program.c"
        for page in PAGES:
            for lines, printed in blocks(page, "c"):
                source.write_text(lines)
                subprocess.run([*COMPILE, "-o", program, str(source),
                                *CLIENT], check=True)
                self.assertEqual(self.run_in_folder(program), printed)

    def test_example_in_c(self) -> None:
        program = str(self.folder / "example")
        subprocess.run([*COMPILE, "-o", program,
                        str(REPOSITORY / "c/example.c"), *CLIENT],
                       check=True)
        self.assertEqual(self.run_in_folder(program), (
            "committed 1\npark 1 from (100, 100) to (180, 160)\n"
            "park 3 from (150, 140) to (420, 300)\n"))

    def test_page_is_short(self) -> None:
        words = (REPOSITORY / PAGES[0]).read_text().split()
        self.assertLessEqual(len(words), 1500)

    def imported(self, *paths: object) -> Path:
        """Where a Python that looks there for modules has this package."""
        lines = ("import sys; sys.path[:0] = sys.argv[1:]; import gist; "
                 "print(gist.__version__, gist.__file__)")
        version, path = self.run_in_folder(
            sys.executable, "-I", "-c", lines, *map(str, paths)).split()
        self.assertEqual(version, gist.__version__)
        return Path(path)

    def test_wheel(self) -> None:
        wheel = self.folder / wheel_of_gist.build_wheel(str(self.folder))
        self.assertEqual(self.imported(wheel), wheel / "gist/__init__.py")
        with zipfile.ZipFile(wheel) as files:
            self.assertIn("gist/py.typed", files.namelist())

    def test_archive_of_sources(self) -> None:
        """Its builder makes the same wheel, as `python -m build` asks it."""
        archive = wheel_of_gist.build_sdist(str(self.folder))
        with tarfile.open(self.folder / archive) as files:
            files.extractall(self.folder)
        folder = self.folder / archive[:-len(".tar.gz")]
        name = self.run_in_folder(
            sys.executable, "-I", "-c",
            "import sys; sys.path.insert(0, sys.argv[1]); import wheel_of_gist"
            "; print(wheel_of_gist.build_wheel(sys.argv[1]))", str(folder))
        built = (folder / name.strip()).read_bytes()
        wheel = wheel_of_gist.build_wheel(str(self.folder))
        with zipfile.ZipFile(self.folder / wheel) as mine, zipfile.ZipFile(
                io.BytesIO(built)) as its:
            self.assertEqual([mine.read(it) for it in mine.namelist()],
                             [its.read(it) for it in its.namelist()])

    def test_pip(self) -> None:
        if importlib.util.find_spec("pip") is None:
            # (Debian's Python has none by itself; the wheel is tested above)
            return
        for words in ([], ["--no-build-isolation", "--editable"]):
            target = self.folder / f"it{len(words)}"
            self.run_in_folder(sys.executable, "-m", "pip", "install",
                               "--quiet", "--no-index", "--target",
                               str(target), *words,
                               str(REPOSITORY / "python"))
            self.assertTrue(any(target.glob("gist_client-*.dist-info")))
        self.assertEqual(self.imported(self.folder / "it0"),
                         self.folder / "it0/gist/__init__.py")
        path = (self.folder / "it2/gist_client.pth").read_text().strip()
        self.assertEqual(self.imported(path),
                         REPOSITORY / "python/gist/__init__.py")
