#!/usr/bin/env python3
"""Prints crates.txt: for each crate in edges.txt all crates of this repository that it depends on, and those of the kit that its line names."""
import functools
import pathlib

LINES = [line.split(":") for line in (pathlib.Path(__file__).parent / "edges.txt").read_text().splitlines() if not line.startswith("#")]
EDGES = {head.split()[0]: edges.split() for head, edges in LINES}


@functools.cache
def below(name):
    """All crates that a crate depends on, the lowest first."""
    return list(dict.fromkeys(one for edge in EDGES[name] if edge in EDGES for one in [*below(edge), edge]))


print("# NAME: what it stands on. Made by tools/edges.py of tools/edges.txt")
for head, edges in LINES:
    name = head.split()[0]
    print(" ".join([head + ":", *below(name), *[edge for edge in EDGES[name] if edge not in EDGES]]))
