#!/bin/sh
# Times what an opening reads: a file with a tree of so many random boxes and a log that has as many pages as a log can have, the
# first ones, is made, and the parts of an opening are made (the log read, its pages laid, the tree tested over 16
# frames), beside `PRAGMA integrity_check` and `rtreecheck` of SQLite's R*Tree of as many random boxes, on a file too. Times
# are processor time, the system's too, and the files are in the system's cache. The arguments, if there are any, are how many
# boxes, how many rounds, and the path of `gx_damage_runs`; else that of this checkout is proved and built. SQLITE names another
# `sqlite3`.
set -eu
top=$(cd "$(dirname "$0")/.." && pwd)
pairs=${1:-1000000}
rounds=${2:-5}
program=${3:-}
made=$(mktemp -d)
trap 'rm -rf "$made"' EXIT
if [ -z "$program" ]; then
    cd "$top/crates/gx_damage_runs"
    if ! rt run </dev/null >"$made/log" 2>&1; then
        cat "$made/log"
        exit 1
    fi
    program="$top/crates/gx_damage_runs/out/gx_damage_runs"
fi
cd "$made"
python3 - "$pairs" "$rounds" "$program" "${SQLITE:-sqlite3}" <<'P'
import os, random, statistics, subprocess, sys

pairs, rounds, program, sqlite = int(sys.argv[1]), int(sys.argv[2]), sys.argv[3], sys.argv[4]

def took(child):
    """A child's processor time and the most memory it had, once it has ended."""
    _, status, used = os.wait4(child.pid, 0)
    child.returncode = os.waitstatus_to_exitcode(status)
    if child.returncode:
        sys.exit(f"{child.args[0]} ended with {child.returncode}")
    return used.ru_utime + used.ru_stime, used.ru_maxrss / 1024

def reads(child):
    with open(f"/proc/{child.pid}/io") as counts:
        return int(next(line for line in counts if line.startswith("syscr")).split()[1])

def ours(line):
    """What a line prints, the reads that it makes, and what its process takes."""
    child = subprocess.Popen([program], stdin=subprocess.PIPE, stdout=subprocess.PIPE, text=True)
    before = reads(child)
    child.stdin.write(line + "\n")
    child.stdin.flush()
    printed = child.stdout.readline().strip()
    made = reads(child) - before
    child.stdin.close()
    child.stdout.read()
    return printed, made, *took(child)

def theirs(statement):
    child = subprocess.Popen([sqlite, "boxes.sqlite", statement], stdout=subprocess.PIPE, text=True)
    printed = child.stdout.read().strip()
    if printed != "ok":
        sys.exit(f"{statement}: {printed}")
    return took(child)

def make_theirs():
    draw = random.Random(1)
    with open("boxes.sql", "w") as script:
        script.write("PRAGMA page_size = 4096; PRAGMA journal_mode = OFF; BEGIN;\n")
        script.write("CREATE VIRTUAL TABLE boxes USING rtree_i32(id, x1, x2, y1, y2);\n")
        for row in range(pairs):
            x, y = draw.randrange(1 << 20), draw.randrange(1 << 20)
            script.write(f"INSERT INTO boxes VALUES({row + 1}, {x}, {x + draw.randrange(1024)}, {y}, {y + draw.randrange(1024)});\n")
        script.write("COMMIT;\n")
    with open("boxes.sql") as script:
        subprocess.run([sqlite, "boxes.sqlite"], stdin=script, stdout=subprocess.DEVNULL, check=True)

printed, _, seconds, memory = ours(f"make tree.device {pairs}")
print(f"{printed}, made in {seconds:.1f} s of processor time")
make_theirs()
opens, integrity, rtree = [], [], []
for _ in range(rounds):
    opens.append(ours("open tree.device"))
    integrity.append(theirs("PRAGMA integrity_check"))
    rtree.append(theirs("SELECT rtreecheck('boxes')"))
print(opens[0][0])
median = lambda values: statistics.median(values)
ours_took = median(o[2] for o in opens)
print(f"opening: {ours_took:.2f} s, {opens[0][1]} reads, {max(o[3] for o in opens):.0f} MB, file {os.path.getsize('tree.device') >> 20} MB")
for name, runs in [("integrity_check", integrity), ("rtreecheck", rtree)]:
    ratio = median(run[0] / o[2] for run, o in zip(runs, opens))
    print(f"{name}: {median(run[0] for run in runs):.2f} s, {max(run[1] for run in runs):.0f} MB, {ratio:.2f} of the opening's time")
both = median((i[0] + r[0]) / o[2] for i, r, o in zip(integrity, rtree, opens))
print(f"both: {both:.2f} of the opening's time; file {os.path.getsize('boxes.sqlite') >> 20} MB")
P
