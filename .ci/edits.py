#!/usr/bin/env python3
"""Looks at edits, and at how long functions and files are. Prints nothing if all is well.

- Each edit of crates/NAME/must-fail and planted/NAME can be applied: an `old:` text occurs once in its file, as the
  pairs above it left that file, and the text changes.
- What a table of wrong rules names in README or docs/ is a word of the sources or an edit; if its head says 'the gate
  refuses', it is an edit.
- A function has at most 40 lines without its contract, and a file of src at most 400, but for those listed below.
"""
import pathlib
import re
import sys

TOP = pathlib.Path(__file__).resolve().parent.parent
sys.path.append(str(TOP / "tools"))
from planted import applied, read

MOST_LINES_OF_FUNCTION = 40
MOST_LINES_OF_FILE = 400
# What is longer, with its lines. Nothing is to be added: what is here may get no longer, and goes once it fits.
LONG_FUNCTIONS = {
    "gx_device_runs/src/records.rt say_record": 41,
    "gx_front/src/tests.rt files_that_hold_no_index": 79,
    "gx_front/src/tests.rt what_is_committed_is_in_the_file": 52,
    "gx_plain_reader/src/log.rt take": 45,
    "gx_record/src/encode.rt write": 48,
    "gx_tests/src/classes.rt larger_splits": 46,
    "gx_tests/src/classes.rt ties": 48,
}
LONG_FILES = {
    "gx_plain/src/slot.rt": 438,
    "gx_tests/src/nodes.rt": 411,
    "gx_tests/src/scripts.rt": 408,
}


def edits():
    """The edits that each run of the gate tries, and those that it tries in turn."""
    return sorted([*TOP.glob("crates/*/must-fail/*.edit"), *TOP.glob("planted/*/*.edit")])


def why_not_applied(edit):
    """Why an edit can't be applied, or None."""
    crate = edit.parent.name if edit.parent.parent.name == "planted" else edit.parent.parent.name
    made = applied(read(edit, crate), TOP / "crates" / crate)
    return made if isinstance(made, str) else None


def tables(text):
    """The tables of a page, each as its head and its other lines."""
    for run in re.finditer(r"(?:^\|.*\n)+", text, re.M):
        lines = run[0].splitlines()
        yield lines[0], lines[2:]


def wrong_names(page, tried, words):
    """Names in tables of wrong rules that are neither edits nor, if the head doesn't say that the gate refuses them, words of the sources."""
    for head, rows in tables(page.read_text()):
        if not re.match(r"\| (Wrong|Change)", head):
            continue
        known = tried if "the gate refuses" in head else tried | words
        for row in rows:
            yield from (f"{page.stem}: no edit `{name}`" for name in re.findall(r"`(\w+)`", row.rsplit("|", 2)[1]) if name not in known)


# How a clause begins, and a definition.
CLAUSE = re.compile(r"\s*(requires|ensures|decreases|invariant)\b")
FUNCTION = re.compile(r'( *)(?:pub(?:\(\w+\))? )?(?:const )?(?:unsafe )?(?:extern "C" )?fn (\w+)')


def functions(lines):
    """Each function that has a body, with how many lines it has without its contract."""
    for at, line in enumerate(lines):
        begun = FUNCTION.match(line)
        if not begun:
            continue
        margin, clauses, in_contract = begun[1], 0, False
        for end in range(at, len(lines)):
            here = lines[end]
            if end > at and in_contract and re.match(margin + r"\{", here):
                in_contract = False
            elif end > at and CLAUSE.match(here) and len(here) - len(here.lstrip()) == len(margin) + 4:
                in_contract = True
            clauses += in_contract
            if here.endswith(";") and (in_contract or end == at or here.startswith(margin + ")")):
                break
            if here in (margin + "}", margin + "{}") or (end == at and here.endswith("}")):
                yield begun[2], end - at + 1 - clauses
                break


def long_ones(found, most, listed, what):
    """What is longer than it may be, or listed and short enough."""
    for name, lines in found.items():
        if lines > max(most, listed.get(name, 0)):
            yield f"{name}: {what} of {lines} lines, {listed.get(name, most)} at most"
    for name in listed:
        if found.get(name, 0) <= most:
            yield f"{name}: take it out of .ci/edits.py, it has {found.get(name, 'no')} lines"


def main():
    every = edits()
    bad = [f"{edit.relative_to(TOP)}: {why}" for edit in every if (why := why_not_applied(edit))]
    sources = sorted(TOP.glob("crates/*/src/**/*.rt"))
    words = set()
    for path in sources + sorted(TOP.glob("crates/*/specs/**/*.antt")) + sorted(TOP.glob("crates/*/proofs/**/*.antt")):
        words.update(re.findall(r"\w+", path.read_text()))
    tried = {edit.stem for edit in every}
    for page in [TOP / "README.md"] + sorted((TOP / "docs").glob("*.md")):
        bad += wrong_names(page, tried, words)
    long_functions, long_files = {}, {}
    for path in sources:
        lines = path.read_text().splitlines()
        name = str(path.relative_to(TOP / "crates"))
        long_files[name] = len(lines)
        for function, count in functions(lines):
            key = f"{name} {function}"
            long_functions[key] = max(count, long_functions.get(key, 0))
    bad += long_ones(long_functions, MOST_LINES_OF_FUNCTION, LONG_FUNCTIONS, "a function")
    bad += long_ones(long_files, MOST_LINES_OF_FILE, LONG_FILES, "a file")
    print("\n".join(bad), end="\n" if bad else "")


main()
