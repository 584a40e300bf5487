#!/usr/bin/env python3
"""Looks at README and docs/: each page's words, names in backquotes, links, dates, and how many lines a file has.

Prints nothing if all is well.
"""
import pathlib
import re

# Words that a page may have, at most. A page that isn't here fails.
WORDS = {
    "README": 700, "MAP": 1600, "SCRIPT": 1800, "OPERATING": 1600, "CLIENTS": 1500, "LIBRARY": 1200, "FILE": 1900, "TREE": 2400,
    "CLASSES": 1300, "LOG": 1700, "RECOVERY": 2400, "ENGINE": 2300, "SESSIONS": 1700, "THEOREM": 3200, "PROMISES": 1500,
    "PROOFS": 1500, "SPEED": 1200, "GATE": 400, "DECISIONS": 1300,
}
# Words that all pages may have together.
ALL = 32000
# Names of other programs, of the toolchain and of its library.
ELSEWHERE = {
    "gist_redo", "integrity_check", "rtree_i32", "common_steps", "may_wait", "StartupXLOG", "XLogInsert", "XLogFlush",
    "ReadBuffer", "CreateCheckPoint", "copy_nonoverlapping", "ptr", "TypeError", "ValueError",
}
TOP = pathlib.Path(__file__).resolve().parent.parent
WORD = re.compile(r"[A-Za-z_][A-Za-z0-9_]*")


def words_of(paths):
    """All words of these files, and the names of the files themselves."""
    found = set()
    for path in paths:
        found.update(WORD.findall(path.read_text(errors="replace")))
        found.update(WORD.findall(path.name))
    return found


def files(top, suffixes):
    return [path for path in top.rglob("*") if path.suffix in suffixes and "out" not in path.parts]


CRATES = {path.name: path for path in (TOP / "crates").iterdir() if path.is_dir()}
SOURCES = {".rt", ".antt", ".edit"}
OF_CRATE = {}
FOLDERS = {folder.name for path in CRATES.values() for folder in path.rglob("*") if folder.is_dir()}


def of_crate(name):
    """All words of a crate's code, definitions, lemmas and edits, those planted beside the gate among them."""
    if name not in OF_CRATE:
        OF_CRATE[name] = words_of(files(CRATES[name], SOURCES) + files(TOP / "planted" / name, SOURCES))
        OF_CRATE[name] |= {folder.name for folder in CRATES[name].rglob("*") if folder.is_dir()}
    return OF_CRATE[name]


def everywhere():
    found = words_of([path for name in ("bench", "trials", "prices", "tools") for path in (TOP / name).iterdir() if path.is_file()])
    found |= words_of([TOP / "gist"])
    found |= words_of(files(TOP / "python", {".py"}) + files(TOP / "c", {".c", ".h"}))
    for name in CRATES:
        found |= of_crate(name)
    return found | set(CRATES) | FOLDERS | ELSEWHERE


def expanded(text):
    """`a::{b, c}` as `a::b` and `a::c`."""
    braces = re.fullmatch(r"(.*)\{(.*)\}(.*)", text)
    if not braces:
        return [text]
    return [braces[1] + part.strip() + braces[3] for part in braces[2].split(",")]


def is_path(text):
    return re.fullmatch(r"\.?[A-Za-z0-9_.-]+(/[A-Za-z0-9_.-]+)+/?", text) or re.fullmatch(r"[A-Za-z0-9_-]+\.(sh|py|md|rt|antt|txt)", text)


def has_path(text):
    """Whether there is such a file; a part in capitals means any name."""
    text = "/".join("*" if re.fullmatch(r"[A-Z]+", part) else part for part in text.strip("/").split("/"))
    folders = ("", "docs/", "bench/", "trials/", "prices/", "tools/", ".ci/", "crates/", "crates/*/", "crates/*/src/", "crates/*/specs/", "crates/*/proofs/")
    return any(next(TOP.glob(folder + text + end), None) for folder in folders for end in ("", ".rt", ".antt"))


def is_name(word):
    """Whether a word can only be a name of the sources: of several parts, or a crate's."""
    return "_" in word.strip("_") or re.fullmatch(r"[A-Z][a-z0-9]+([A-Z][a-z0-9]*)+", word)


def wrong(span, known):
    """What in one span of backquotes names nothing."""
    for text in expanded(span):
        if is_path(text):
            # (what a build makes isn't there)
            if "/out/" not in text and not has_path(text):
                yield text
            continue
        parts = text.split("::")
        crate = parts[0] if parts[0].startswith("gx_") else None
        if crate and len(parts) > 1:
            if crate not in CRATES or not all(word in of_crate(crate) for word in WORD.findall("::".join(parts[1:]))):
                yield text
            continue
        for word in WORD.findall(text):
            if (is_name(word) or len(parts) > 1) and word not in known:
                yield word if len(parts) == 1 else text


def behind_crates(text):
    """Names directly after a crate's: `gx_tree` `split`, `descent`."""
    for run in re.finditer(r"`(gx_\w+)`((?: `[a-z0-9_/]+`)(?:,? (?:and )?`[a-z0-9_/]+`)*)", text):
        for name in re.findall(r"`([^`]+)`", run[2]):
            if name.startswith("gx_"):
                break
            yield run[1], name


def clauses(text):
    """Clauses after a call: `gx_x::f` (`a`, `b`)."""
    for run in re.finditer(r"`(gx_\w+)::[^`]+`(?:,? `(?!gx_)[^`]+`)* \(((?:`[a-z_]+`,? ?(?:and )?)+)", text):
        for name in re.findall(r"`([^`]+)`", run[2]):
            yield run[1], name


def has_clause(crate, name):
    sources = files(CRATES[crate] / "src", {".rt"})
    return any(re.search(rf"ensures\*? {name} \{{", path.read_text()) for path in sources)


def dates(text):
    """Dates outside of the line that says when something was measured."""
    for line in text.splitlines():
        found = re.search(r"\b20\d\d-\d\d-\d\d\b|\b[A-Z][a-z]+ 20\d\d\b", line)
        if found and "easured on" not in line:
            yield found[0]


def anchor(title):
    return re.sub(r"[^a-z0-9 _-]", "", title.lower().replace("`", "")).replace(" ", "-")


def links(page, text):
    """Links of a page that lead nowhere."""
    for target in re.findall(r"\]\(([^)\s]+)\)", text):
        name, _, place = target.partition("#")
        if "://" in target:
            continue
        other = (page.parent / name) if name else page
        if not other.exists():
            yield target
        elif place and place not in map(anchor, re.findall(r"^#+ (.*)$", other.read_text(), re.M)):
            yield target


def lines_of(text):
    """Rows `FILE` | LINES whose file has another number of lines, by more than a tenth."""
    for name, lines in re.findall(r"^\| `(\w+(?:/\w+)+)` \| (\d+) \|", text, re.M):
        for path in (TOP / "crates").glob(name + ".*t"):
            count = len(path.read_text().splitlines())
            if abs(count - int(lines)) * 10 > count:
                yield f"{name} has {count} lines, not {lines}"


def main():
    known = everywhere()
    bad = []
    words = 0
    for page in [TOP / "README.md"] + sorted((TOP / "docs").glob("*.md")):
        text = page.read_text()
        # GATE's table is made by a script, and is as long as there are crates.
        counted = re.sub(r"^\|.*$", "", text, flags=re.M) if page.stem == "GATE" else text
        words += len(counted.split())
        most = WORDS.get(page.stem)
        if most is None or len(counted.split()) > most:
            bad.append(f"{page.stem}: {len(counted.split())} words, {most or 'and no place in .ci/pages.py'}")
        prose = re.sub(r"^(```.*?^```|    .*?)$", "", text, flags=re.M | re.S)
        for span in re.findall(r"`([^`\n]+)`", prose):
            bad += [f"{page.stem}: no `{name}`" for name in wrong(span, known)]
        for crate, name in behind_crates(prose):
            last = name.split("/")
            if crate in CRATES and not all(part in of_crate(crate) for part in last):
                bad.append(f"{page.stem}: no `{name}` in {crate}")
        bad += [f"{page.stem}: no clause `{name}` in {crate}" for crate, name in clauses(prose) if not has_clause(crate, name)]
        bad += [f"{page.stem}: no {target}" for target in links(page, text)]
        bad += [f"{page.stem}: a date, {date}" for date in dates(text)]
        bad += [f"{page.stem}: {wrong_count}" for wrong_count in lines_of(text)]
    if words > ALL:
        bad.append(f"all pages: {words} words, {ALL}")
    print("\n".join(dict.fromkeys(bad)), end="\n" if bad else "")


main()
