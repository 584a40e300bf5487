#!/usr/bin/env bash
# Times a search that finds much: random boxes are inserted in an index in a file, and one search finds all of them. What it prints is
# compared with the boxes, by row. Times are processor time, the system's too, of a run of `gist run` with that search, without what a
# run takes whose search finds nothing: the median of the rounds, with as many frames as there may be. The arguments, if there are any,
# are the path of the program, how many rounds, and how many boxes each index has; else the program of this checkout is proved and built.
set -euo pipefail
top="$(cd "$(dirname "${BASH_SOURCE[0]}")/.." && pwd)"
program="${1:-}"
rounds="${2:-5}"
if [ -z "$program" ]; then
    "$top/gist" plain < /dev/null
    program="$top/crates/gx_front/out/gx_front"
fi
[ $# -gt 2 ] && shift 2 || set -- 40000 80000 160000
made="$(mktemp -d)"
trap 'rm -rf "$made"' EXIT
python3 - "$made" "$program" "$rounds" "$@" <<'P'
import os, random, resource, statistics, subprocess, sys

made, program, rounds, counts = sys.argv[1], sys.argv[2], int(sys.argv[3]), map(int, sys.argv[4:])
FILE = f"{made}/boxes.gist"
ALL, NONE = "OVERLAP 0 0 2000000 2000000", "OVERLAP -2 -2 -1 -1"

def gist(words, script=""):
    """A run: what it prints, and its processor time."""
    before = resource.getrusage(resource.RUSAGE_CHILDREN)
    printed = subprocess.run([program, *words], input=script, check=True, capture_output=True, text=True).stdout
    after = resource.getrusage(resource.RUSAGE_CHILDREN)
    return printed, after.ru_utime + after.ru_stime - before.ru_utime - before.ru_stime

def drawn(count):
    """So many boxes, as a script has them."""
    draw = random.Random(7)
    for _ in range(count):
        x, y = draw.randrange(1000000), draw.randrange(1000000)
        yield f"{x} {y} {x + draw.randrange(1000)} {y + draw.randrange(1000)}"

def inserts(boxes):
    """A script that inserts the boxes, 500 a transaction."""
    for row, box in enumerate(boxes):
        if row % 500 == 0:
            yield "1 COMMIT\n1 BEGIN\n" if row else "1 BEGIN\n"
        yield f"1 INSERT {row} {box}\n"
    yield "1 COMMIT\n"

def search(query):
    return gist(["run", FILE, "--frames", "4096"], f"1 BEGIN\n1 {query}\n1 ABORT\n")

for count in counts:
    boxes = list(drawn(count))
    gist(["format", FILE, "65536", "100"])
    gist(["run", FILE, "--frames", "4096"], "".join(inserts(boxes)))
    wanted = "".join(["1 ok\n", f"1 found {count}\n", *(f"1 entry {row} {box}\n" for row, box in enumerate(boxes)), "1 aborted\n"])
    times = []
    for _ in range(rounds):
        (found, took), (_, rest) = search(ALL), search(NONE)
        if found != wanted:
            sys.exit(f"{count} boxes: another answer")
        times.append(took - rest)
    print(f"{count} found: {statistics.median(times):.3f} s, {min(times):.3f} to {max(times):.3f}", flush=True)
P
