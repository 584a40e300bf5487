#!/bin/sh
# Builds the program that makes the engine's calls over a device in memory, and the tree's steps on pages in memory without one, compares
# their sums, and times both in turn: boxes inserted in transactions of a hundred, windows looked for, and pairs marked (with the engine,
# deleted, in transactions of a hundred). Then it times boxes that have a commit each, with nothing beside them. After the times it prints,
# for one of what was asked, the events of each kind and the bytes that were written to the device.
# Times are processor time, the system's too, without what a run takes that is asked for nothing. The argument, if there is one, is how
# many inserts and marks a run has, 100,000 at most; it has three times as many queries, and a tenth of the commits.
set -eu
top=$(cd "$(dirname "$0")/.." && pwd)
many=${1:-100000}
made=$(mktemp -d)
trap 'rm -rf "$made"' EXIT
cd "$top/crates/gx_bench_runs"
if ! rt run -- claims claims 1 >"$made/log" 2>&1; then
    cat "$made/log"
    exit 1
fi
cd "$made"
python3 - "$many" "$top/crates/gx_bench_runs/out/gx_bench_runs" <<'P'
import resource, statistics, subprocess, sys

many, program = int(sys.argv[1]), sys.argv[2]

def run(benchmark, kind, count):
    before = resource.getrusage(resource.RUSAGE_CHILDREN)
    printed = subprocess.run([program, benchmark, kind, str(count)], check=True, capture_output=True, text=True).stdout
    after = resource.getrusage(resource.RUSAGE_CHILDREN)
    return after.ru_utime + after.ru_stime - before.ru_utime - before.ru_stime, int(printed)

def timed(benchmark, kind, count):
    none, (took, sum) = run(benchmark, kind, 0)[0], run(benchmark, kind, count)
    return took - none, sum

def each(told, kind, count):
    return (run(told, kind, count)[1] - run(told, kind, 0)[1]) / count

def events(kind, count):
    kinds = ["asks", "moves", "log-steps", "page-writes", "checkpoint-steps"]
    told = [each(it, kind, count) for it in kinds]
    shares = ", ".join(f"{name} {one:.3f} ({100 * one / sum(told):.1f} %)" for name, one in zip(kinds, told))
    print(f"  of one: {shares}; helps {each('helps', kind, count):.3f}; {each('bytes', kind, count):.0f} bytes to the device")

for kind, count in [("inserts", many), ("queries", 3 * many), ("marks", many)]:
    rates, ratios = [], []
    for _ in range(9):
        (engine, sum_of_engine), (tree, sum_of_tree) = [timed(it, kind, count) for it in ("index", "tree")]
        if kind != "marks" and sum_of_engine != sum_of_tree:
            sys.exit(f"{kind} {count}: the sums differ: {sum_of_engine} and {sum_of_tree}")
        rates.append([count / it / 1e3 for it in (engine, tree)])
        ratios.append(tree / engine)
    rate = [statistics.median(it[i] for it in rates) for i in (0, 1)]
    print(f"{kind}: engine {rate[0]:.0f} thousand a second; tree alone {rate[1]:.0f}, ratio {statistics.median(ratios):.2f}")
    events(kind, count)
count = many // 10
rate = statistics.median(count / timed("index", "commits", count)[0] / 1e3 for _ in range(9))
print(f"commits: engine {rate:.1f} thousand a second")
events("commits", count)
P
