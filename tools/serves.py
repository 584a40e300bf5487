#!/usr/bin/env python3
"""serves.py [--wrong] [CRATE]..: prints which sources each lemma file of a crate serves: those whose answers cite it, directly or through other
lemma files; a crate above counts as one. If a file serves one source alone and isn't in the folder of that source's name, the line ends in
`=> FOLDER`; --wrong prints only such lines."""
import collections
import pathlib
import re
import sys

CRATES = pathlib.Path(__file__).resolve().parent.parent / "crates"
CITED = re.compile(r"Rattle\.(\w+)\.proofs\.([\w.]+)|\bcrate::proofs::([\w:]+)")
# What a function's own proof is called, and a type's.
ANSWERS = {"Answers", "Invariants", "Proof", "Send", "Sync"}


def name_of(path):
    return ".".join(path.with_suffix("").parts)


def texts_of(crate, folder, suffix):
    """The files of a crate's folder, by name."""
    top = CRATES / crate / folder
    return {name_of(path.relative_to(top)): path.read_text() for path in top.rglob("*" + suffix)}


NAMES = sorted(path.name for path in CRATES.iterdir() if path.is_dir())
CODE = {crate: texts_of(crate, "src", ".rt") for crate in NAMES}
PROOFS = {crate: texts_of(crate, "proofs", ".antt") for crate in NAMES}
# (a file that declares others alone is no lemma file)
LEMMAS = {crate: {name for name, text in texts.items() if name.split(".")[-1] not in ANSWERS and re.search("^(?!pub mod |mod |$)", text, re.M)}
          for crate, texts in PROOFS.items()}
FUNCTIONS = {crate: {name: set(re.findall(r"\bfn (\w+)", text)) for name, text in texts.items()} for crate, texts in CODE.items()}


def cited(crate, text):
    """The lemma files that a text of a crate names."""
    for other, path, own in CITED.findall(text):
        words = (path or own.replace("::", ".")).split(".")
        names = (".".join(words[:end]) for end in range(len(words), 0, -1))
        yield from [(other or crate, name) for name in names if name in LEMMAS.get(other or crate, ())][:1]


def sources_of(crate, answer):
    """The source that an answer is of: its module's, or that which has its function, if this is a type's."""
    *path, function, _ = answer.split(".")
    module = max((name for name in CODE[crate] if (".".join(path) + ".").startswith(name + ".")), key=len, default="lib")
    having = [name for name, functions in FUNCTIONS[crate].items() if function in functions]
    return {module} if module in having or not having else set(having)


def served():
    """The sources that each lemma file serves."""
    found, below = collections.defaultdict(set), collections.defaultdict(set)
    for crate in NAMES:
        for name, text in [*PROOFS[crate].items(), *CODE[crate].items()]:
            for lemma in cited(crate, text):
                if lemma[0] != crate:
                    found[lemma].add(crate)
                elif name in CODE[crate]:
                    found[lemma].add(name)
                elif name in LEMMAS[crate]:
                    below[crate, name].add(lemma)
                else:
                    found[lemma] |= sources_of(crate, name)
    waiting = list(found)
    while waiting:
        above = waiting.pop()
        for lemma in below[above]:
            if not found[above] <= found[lemma]:
                found[lemma] |= found[above]
                waiting.append(lemma)
    return found


asked = [word for word in sys.argv[1:] if word != "--wrong"] or NAMES
users_of = served()
for crate in asked:
    for name in sorted(LEMMAS[crate]):
        users = sorted(users_of[crate, name])
        wrong = len(users) == 1 and users[0] in CODE[crate] and not name.startswith(users[0] + ".")
        if wrong or "--wrong" not in sys.argv:
            print(f"{crate} {name}: {', '.join(users) or 'nothing'}" + (f" => {users[0]}" if wrong else ""))
