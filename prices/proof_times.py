#!/usr/bin/env python3
"""Prints what each function's proof took in a crate, and for what, by the times at which a check wrote what it keeps.

    prices/proof_times.py CRATE [LINES]

Run `rt check --jobs 1` in the crate's folder before, with its out/incremental gone: of a check over kept work, or with more
jobs, the times say nothing. A line each for the parts that took longest (20 of them, or LINES): seconds by the clock, the
function or derived impl, and the part: Lts is the borrow checker's, Tie ties the function to the contracts that it calls by,
Proof has the goals that are searched, Answers the written ones. A part that comes first in a run, or first in what a fork of
the check does, has the reading of libraries in it. The last line has the sums."""
import collections
import os
import re
import sys

from prover import TOP

PARTS = ("Lts", "Tie", "Proof", "Answers", "Goals")
DERIVED = re.compile(r"(Clone|Debug|Default|Display|PartialEq|PartialOrd|Ord)\.(clone|fmt|default|eq|partial_cmp|cmp)$")


def kept_files(crate):
    """When each file was kept, and its name, in that order."""
    found = []
    for folder, _, names in os.walk(f"{TOP}/crates/{crate}/out/incremental"):
        found += [(os.stat(f"{folder}/{name}").st_mtime, name) for name in names]
    return sorted(found)


def times(crate):
    """What each function's parts took."""
    took, last = collections.Counter(), None
    for at, name in kept_files(crate):
        words = re.sub(rf"^Rattle-{crate}-(proofs\.|specs\.)?|\.oantt$", "", name).split(".")
        place = next((i for i, word in enumerate(words) if word in PARTS), len(words))
        took[".".join(words[:place]), words[place] if place < len(words) else "rest"] += at - (last or at)
        last = at
    return took


def main(crate, lines="20"):
    took = times(crate)
    sums, derived = collections.Counter(), 0
    for (function, part), seconds in took.items():
        sums[part] += seconds
        derived += seconds if DERIVED.search(function) else 0
    for (function, part), seconds in took.most_common(int(lines)):
        print(f"{seconds:6.1f} {function} {part}")
    told = ", ".join(f"{part} {seconds:.0f}" for part, seconds in sums.most_common())
    print(f"{crate}: {sum(sums.values()):.0f} s: {told}; derived impls {derived:.0f}")


if __name__ == "__main__":
    main(*sys.argv[1:])
