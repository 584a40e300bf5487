#!/usr/bin/env python3
"""Times the goals of functions that have no written answer, each by the two tactics that are tried first.

    prices/goal_times.py CRATE FUNCTION..

A line for each goal that takes one of the two more than half a second, and one for each function with the sum of its
searches. Each goal's proof by each tactic is in a separate file on a copy of the crate; the times at which these are
kept show what they took. A goal that neither proves has another proof, which the check finds by itself. `rt check` in the
crate's folder builds its libraries first."""
import collections
import glob
import os
import re
import sys
import tempfile
import time

from prover import check, copied, kept_by_rt

TACTICS = {"search": "search rules", "grind": "grind (arith, common_steps)"}
LEMMAS = {"search": "use Rattle.std.proofs.Common.{rules}", "grind": "use Rattle.std.proofs.Common.{arith}\nuse Rattle.std.proofs.lemmas.Grind.{common_steps}"}
GOAL = re.compile(r"^pub (\S+) :(?:.*?)\n((?:unfolding [^\n]*\n)?)\1 ([^=]*)= \?", re.M | re.S)


def split_goals(crate, folder, offered, place):
    """Writes each goal of a function that has no answer as modules below its answers, and returns the goals."""
    module = f"Rattle.{crate}.proofs.{place.replace('/', '.')}"
    file = f"{folder}/proofs/{place}/Answers.antt"
    answers = f"use {module}.Goals as goal\n"
    if os.path.isfile(file):
        with open(file, encoding="utf-8") as it:
            answers = it.read()
    answered = re.findall(r"^pub (\S+) :", answers, re.M)
    named = [line for line in offered.split("\n") if re.match(r"use (?!Rattle\.std\.proofs\.(Common|lemmas\.Grind)\.)", line)]
    goals = [it for it in GOAL.findall(offered) if it[0] not in answered]
    os.makedirs(file[: -len(".antt")], exist_ok=True)
    modules, body = [], []
    for number, (goal, unfolding, names) in enumerate(goals):
        for tactic, text in TACTICS.items():
            name = f"T{number}{tactic}"
            modules.append(name)
            with open(f"{file[: -len('.antt')]}/{name}.antt", "w", encoding="utf-8") as it:
                it.write("\n".join([LEMMAS[tactic], *named, "", f"pub answer : goal.{goal}", f"{unfolding}answer {names}= {text}", ""]))
            body += [f"pub {goal if tactic == 'search' else name} : goal.{goal}", f"{goal if tactic == 'search' else name} = {name}.answer", ""]
    lines = answers.split("\n")
    last = max([at for at, line in enumerate(lines) if line.startswith("use ")], default=-1) + 1
    uses = [f"use {module}.Answers.{it} as {it}" for it in modules]
    with open(file, "w", encoding="utf-8") as it:
        it.write("\n".join([*(f"pub mod {it}" for it in modules), *lines[:last], *uses, *lines[last:], "", *body]))
    return [goal for goal, _, _ in goals]


def kept_since(start, kept, crate):
    """What each of these modules took, by the times at which they were kept."""
    files = [(os.stat(file).st_mtime, os.path.basename(file)) for file in glob.glob(f"{kept}/**", recursive=True) if os.path.isfile(file)]
    found, last = collections.Counter(), start
    for at, file in sorted(it for it in files if it[0] >= start):
        name = re.search(rf"Rattle-{crate}-proofs\.(\S+)\.Answers\.(T\d+[a-z]+)\.", file)
        if name:
            found[name[1], name[2]] += at - last
        last = at
    return found


def main(crate, *functions):
    with tempfile.TemporaryDirectory() as room:
        folder, kept, made = copied(crate, f"{room}/crate"), kept_by_rt(crate, f"{room}/kept"), f"{room}/made"
        said, status, _ = check(crate, folder, kept)
        if status:
            sys.exit(said[-2000:])
        starts = [word for it in functions for word in ("--start", it)]
        said, _, _ = check(crate, folder, kept, "--generated", made, *starts)
        top, goals = f"{made}/Rattle-{crate}-proofs", {}
        for file in sorted(glob.glob(f"{top}/**/AnswersOffered.antt", recursive=True)):
            place = os.path.relpath(os.path.dirname(file), top)
            with open(file, encoding="utf-8") as it:
                goals[place] = split_goals(crate, folder, it.read(), place)
        if not goals:
            sys.exit(said[-2000:])
        start = time.time()
        said, _, _ = check(crate, folder, kept, "--jobs", "1", *(word for it in functions for word in ("--only", it)))
        took = kept_since(start, kept, crate)
        failed = set(re.findall(r"^\./proofs/(\S+)/Answers/(T\d+[a-z]+)\.antt:\d+:\d+: error", said, re.M))
        for place, names in goals.items():
            whole = 0
            for number, goal in enumerate(names):
                times = {tactic: took[place.replace("/", "."), f"T{number}{tactic}"] for tactic in TACTICS}
                whole += times["search"]
                if max(times.values()) > 0.5:
                    told = (f"{tactic} {seconds:.1f}{' in vain' if (place, f'T{number}{tactic}') in failed else ''}" for tactic, seconds in times.items())
                    print(f"  {goal}: {', '.join(told)}")
            print(f"{place}: {len(names)} goals, {whole:.1f} s by search", flush=True)


if __name__ == "__main__":
    main(*sys.argv[1:])
