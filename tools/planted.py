#!/usr/bin/env python3
"""Tries bugs that the prover has to refuse: the edits in planted/CRATE, or in another folder.

usage: planted.py [--of FOLDER] [--lanes N] [--minutes N] CRATE..

FOLDER has a folder of edits for each crate; the crates' own, crates/CRATE/must-fail, are named by `--of must-fail`. A crate is checked
over the libraries that lie in crates/*/out/rlib, as `rt ci` and `rt check` leave them, or in the folder that the environment variable
GIST_PROVED names. Several edits are tried by one check, each in a function that it alone changes, and only these functions and those that
they call are proved. One line an edit, and in the last line how many passed:

    refused        with the first goal of its function that refuses it
    NOT REFUSED    its function is still proved
    BAD EDIT       it can't be applied, can't be read, or is refused only because a proof names what it takes away: it shows nothing of a
                   contract
    not tried      the minutes were over; it counts for nothing

Ends with status 1 where a bug is still proved or an edit is bad. As long as there is a list planted/untried of bugs that no gate has tried
yet, those of them that are still proved, and all bad edits, are counted apart. One that was refused is taken out of the list.
"""
import argparse
import concurrent.futures
import dataclasses
import os
import pathlib
import re
import shutil
import subprocess
import sys
import tempfile
import time

from kit import KIT, TOP, libraries, words

FUNCTION = re.compile(r"^( *)(?:pub(?:\(\w+\))? )?(?:const )?(?:unsafe )?(?:extern \"C\" )?fn (\w+)")
CONSTANT = re.compile(r"^ *(?:pub(?:\(\w+\))? )?const (\w+):")
IMPL = re.compile(r"^impl(?:<.*?>)? (?:(?P<of>[\w:]+)(?:<(?P<at>[^<>]*)[<>].*)? for )?(?P<type>[\w:]+)")
PROOF = re.compile(r"^(?:note: )?(?:\./)?(proofs|src)/(\S+?):(\d+):\d+: error(?:\[\w)?")
STALE = re.compile(r"has no field|is not in scope|has no `|was not admitted")
UNREAD = re.compile(r"\berror\[[\w-]+\]")
VERDICT = re.compile(r"^fn \w+::(\S+): (.*)$", re.M)
# A function that isn't proved since one that it calls isn't.
CALLS = re.compile(r"it calls|which has no proof")
# How many bytes of memory a check has to find free, and how many edits it tries at most, since it takes more with each.
OF_CHECK = 3 << 30
AT_ONCE = 6


@dataclasses.dataclass
class Edit:
    """A bug: its file and the texts that it replaces, the ends of the names of the functions that it changes, and what is known of it."""

    crate: str
    name: str
    #: The file of a pair, its old text and the new one.
    pairs: list
    functions: list = dataclasses.field(default_factory=list)
    said: str = ""
    #: Functions that may not be changed beside it, since its own call them.
    apart: set = dataclasses.field(default_factory=set)
    #: Of a constant: the functions that name it, until they were checked.
    near: list = dataclasses.field(default_factory=list)
    is_alone: bool = False

    def is_well(self):
        return self.said.startswith("refused")


def read(path, crate):
    """The edit in a file."""
    found = Edit(crate, path.stem, [])
    file = old = None
    for line in path.read_text(encoding="utf-8").split("\n"):
        if line.startswith("file: "):
            file = line[6:].strip()
        elif line.startswith("old: "):
            old = line[5:]
        elif line.startswith("new:"):
            found.pairs.append((file, old, re.sub("^ ", "", line[4:])))
            old = None
    return found


def applied(edit, folder):
    """The files below this folder that an edit changes, with their texts then; or why it can't be made."""
    texts, were = {}, {}
    for file, old, new in edit.pairs:
        if not file or not old:
            return "a 'new:' line without 'file:' and 'old:'"
        path = pathlib.Path(folder) / file
        if not file.startswith(("src/", "specs/", "proofs/")) or not path.is_file():
            return f"there is no {file}"
        if file not in texts:
            texts[file] = were[file] = path.read_text(encoding="utf-8")
        if texts[file].count(old) != 1:
            return f"{file} has {old!r} {texts[file].count(old)} times"
        texts[file] = texts[file].replace(old, new)
    return texts if texts != were else "it changes nothing"


def function_at(lines, at, file):
    """The end of the name of the function that has this line, and the numbers of its first and last line; none outside of functions."""
    for first in range(at, -1, -1):
        head = FUNCTION.match(lines[first])
        if head and (first == at or len(lines[at]) - len(lines[at].lstrip()) > len(head[1])):
            break
    else:
        return None
    last = next((it for it in range(first + 1, len(lines)) if lines[it].startswith((head[1] + "}", head[1] + "{}"))), first)
    if last < at:
        return None
    within = pathlib.PurePath(file).stem
    if head[1]:
        impl = next(filter(None, (IMPL.match(it) for it in reversed(lines[:first]))), None)
        if impl:
            within = impl["type"].split("::")[-1] + (impl["of"] or "").split("::")[-1]
            # (a parameter of the impl isn't named)
            within += "".join(it[:1].upper() + it[1:] for it in (impl["at"] or "").split("::") if len(it) > 1)
    return (head[2] if within in ("lib", "main") else f"{within}::{head[2]}"), first + 1, last + 1


def naming(word, folder):
    """The functions of a crate that name a constant, in a contract or a body."""
    found = []
    for path in sorted(pathlib.Path(folder).glob("src/**/*.rt")):
        lines = path.read_text(encoding="utf-8").split("\n")
        within = [function_at(lines, at, str(path)) for at, line in enumerate(lines) if re.search(rf"\b{word}\b", line)]
        found += [it[0] for it in within if it]
    return list(dict.fromkeys(found))


def find_functions(edit, folder):
    """Notes which functions an edit changes, by the places of the texts that it replaces; none for text outside of functions."""
    texts = {file: (pathlib.Path(folder) / file).read_text(encoding="utf-8") for file, _, _ in edit.pairs}
    for file, old, new in edit.pairs:
        text = texts[file]
        lines, at = text.split("\n"), text[: text.index(old)].count("\n")
        found = function_at(lines, at, file) if file.startswith("src/") else None
        edit.functions.append(found[0] if found else None)
        constant = CONSTANT.match(lines[at])
        if not found and constant:
            edit.near = naming(constant[1], folder)
        texts[file] = text.replace(old, new)


class Crate:
    """A crate whose edits are tried, on a copy, over work that is kept from check to check."""

    def __init__(self, name, edits, room, over):
        self.name, self.edits, self.room, self.over = name, edits, room, over
        self.source = pathlib.Path(TOP) / "crates" / name
        for edit in edits:
            made = applied(edit, self.source)
            if isinstance(made, str):
                edit.said = f"BAD EDIT: {made}"
            else:
                find_functions(edit, self.source)

    def batch(self):
        """The next edits that are tried by one check: each in functions that no other of them changes, or calls."""
        left = [it for it in self.edits if not it.said]
        chosen, taken = [], set()
        for edit in left:
            alone = edit.is_alone or None in edit.functions
            if alone and not chosen:
                return [edit]
            if not alone and len(chosen) < AT_ONCE and taken.isdisjoint(edit.functions) and taken.isdisjoint(edit.apart):
                chosen.append(edit)
                taken.update(edit.functions)
        return chosen

    def check(self, batch):
        """Checks the crate with these edits: what the check said."""
        folder = f"{self.room}/crate"
        shutil.rmtree(folder, ignore_errors=True)
        for part in ("src", "specs", "proofs"):
            if (self.source / part).is_dir():
                shutil.copytree(self.source / part, f"{folder}/{part}")
        for edit in batch:
            made = applied(edit, folder)
            if isinstance(made, str):
                # (another edit of this batch changes a text that it names)
                edit.is_alone = True
                continue
            for file, text in made.items():
                (pathlib.Path(folder) / file).write_text(text, encoding="utf-8")
        only = [word for edit in batch if None not in edit.functions and not edit.is_alone for it in edit.functions for word in ("--only", it)]
        if len(batch) == 1:
            only = [word for it in batch[0].near or batch[0].functions if it for word in ("--only", it)]
        command = [f"{KIT}/bin/rattle", "check", *words(self.name, libraries(), folder, self.over), "--jobs", "1"]
        command += ["--incremental", f"{self.room}/kept", *only]
        os.makedirs(f"{self.room}/kept", exist_ok=True)
        ran = subprocess.run(command, cwd=folder, stdin=subprocess.DEVNULL, stdout=subprocess.PIPE, stderr=subprocess.STDOUT, text=True, errors="replace")
        return ran.stdout, ran.returncode

    def errors_of(self, edit, said):
        """What the check found wrong in the functions that an edit changes."""
        found = []
        for line in said.split("\n"):
            at = PROOF.match(line)
            if at and at[1] == "proofs":
                ends = [f"/{it.replace('::', '/')}/" for it in edit.functions if it]
                if None in edit.functions or any(it in f"/{at[2]}" for it in ends):
                    found.append(line)
            elif at and None in edit.functions:
                found.append(line)
            elif at and any(f"src/{at[2]}" == file for file, _, _ in edit.pairs):
                text = (pathlib.Path(self.room) / "crate/src" / at[2]).read_text(encoding="utf-8").split("\n")
                there = function_at(text, min(int(at[3]), len(text)) - 1, at[2])
                if there and there[0] in edit.functions:
                    found.append(line)
        return found

    def judge(self, edit, said, status, is_alone):
        """Says what a check showed of an edit, if it did; else it is tried alone."""
        names = [it for it in edit.near or edit.functions if it]
        verdicts = [verdict for name, verdict in VERDICT.findall(said) if any(f"::{name}".endswith(f"::{it}") for it in names)]
        errors = self.errors_of(edit, said)
        unread = [it for it in errors if UNREAD.search(it)]
        real = [it for it in errors if not STALE.search(it)]
        open_goals = [it for it in verdicts if not it.startswith("proved") and not CALLS.search(it)]
        if unread:
            edit.said = f"BAD EDIT: it can't be read: {unread[0][:160]}"
        elif real or open_goals and not errors:
            edit.said = f"refused: {(real or open_goals)[0][:160]}"
        elif edit.near:
            # (what names the constant refuses nothing: the whole crate is checked)
            edit.near = []
        elif errors and is_alone:
            edit.said = f"BAD EDIT: refused only because a proof names what it takes away: {errors[0][:160]}"
        elif not is_alone and UNREAD.search(said):
            # (another edit of the batch can't be read, and nothing was checked)
            pass
        elif not is_alone:
            edit.apart.update(re.findall(r"`\w+::(?:\w+::)*?(\w+::\w+)`", " ".join(it for it in verdicts if CALLS.search(it))))
            edit.is_alone = not edit.apart
        elif UNREAD.search(said) or not verdicts and status not in (0, 1):
            edit.said = f"BAD EDIT: it can't be read: {said.strip()[-200:]}"
        elif status == 0:
            edit.said = "NOT REFUSED: its function is still proved"
        else:
            edit.said = f"refused: {next((it for it in said.split(chr(10)) if ': error' in it or 'not proved' in it), '')[:160]}"

    def tried(self, until):
        """Tries all, and yields each once it is known."""
        yield from (it for it in self.edits if it.said)
        while any(not it.said for it in self.edits) and time.monotonic() < until:
            batch = self.batch()
            said, status = self.check(batch)
            for edit in batch:
                if len(batch) == 1 or not edit.is_alone:
                    self.judge(edit, said, status, is_alone=len(batch) == 1)
                if edit.said:
                    yield edit
            if UNREAD.search(said) and not any(it.said for it in batch):
                # (the error is in no function that an edit changes)
                for edit in batch:
                    edit.is_alone = True
        for edit in self.edits:
            if not edit.said:
                edit.said = "not tried"
                yield edit


def lanes():
    """How many checks may run at once."""
    free = int(re.search(r"MemAvailable: *(\d+)", pathlib.Path("/proc/meminfo").read_text())[1]) << 10
    return max(1, min(len(os.sched_getaffinity(0)), free // OF_CHECK))


def try_crate(name, edits, over, until):
    with tempfile.TemporaryDirectory(prefix="planted-") as room:
        for edit in Crate(name, edits, room, over).tried(until):
            print(f"{edit.crate}/{edit.name}: {edit.said}", flush=True)


def edits_in(folder, crate):
    """The edits of a crate in a folder of edits."""
    at = pathlib.Path(TOP) / (f"crates/{crate}/must-fail" if folder == "must-fail" else f"{folder}/{crate}")
    return [read(it, crate) for it in sorted(at.glob("*.edit"))]


def untried():
    """The planted bugs that no gate has tried yet, as CRATE/NAME; none if there is no list."""
    listed = pathlib.Path(f"{TOP}/planted/untried")
    return set(listed.read_text(encoding="utf-8").split()) if listed.exists() else set()


def main():
    given = argparse.ArgumentParser(description=__doc__, formatter_class=argparse.RawDescriptionHelpFormatter)
    given.add_argument("--of", default="planted")
    given.add_argument("--lanes", type=int, default=0)
    given.add_argument("--minutes", type=float, default=600)
    given.add_argument("crates", nargs="*")
    asked = given.parse_args()
    proved = os.environ.get("GIST_PROVED")
    over = (lambda it: f"{proved}/{it}") if proved else (lambda it: f"{TOP}/crates/{it}/out/rlib")
    until = time.monotonic() + 60 * asked.minutes
    edits = {crate: edits_in(asked.of, crate) for crate in asked.crates}
    with concurrent.futures.ThreadPoolExecutor(asked.lanes or lanes()) as pool:
        for it in [pool.submit(try_crate, crate, found, over, until) for crate, found in edits.items() if found]:
            it.result()
    every = [it for found in edits.values() for it in found]
    passed = sum(map(Edit.is_well, every))
    skipped, bad = (sum(it.said.startswith(said) for it in every) for said in ("not tried", "BAD EDIT"))
    listed = untried()
    bad = bad if listed else 0
    new = sum(f"{it.crate}/{it.name}" in listed for it in every if it.said.startswith("NOT REFUSED"))
    failed = len(every) - passed - skipped - bad - new
    counted = ((bad, "bad"), (new, "still proved, of those untried"), (skipped, "not tried"))
    apart = ", ".join(f"{count} {said}" for count, said in counted if count)
    print(f"{passed} passed, {failed} failed" + (f" ({apart})" if apart else ""))
    sys.exit(failed != 0)


if __name__ == "__main__":
    main()
