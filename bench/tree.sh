#!/bin/sh
# Builds the program that makes the tree's steps on pages in memory, and the same in plain C, compares all pages' bytes and
# what both find, and times both. The C is built twice: with `&&` between the four tests of a box, and with `&`, without jumps.
# If Boost's headers are installed (Debian's libboost-dev), its R-tree is built over the same boxes and windows too (boost.cpp),
# and its queries' sum compared, once with a separate vector for each query's hits and once with one for all. The same is
# done for boxes of space, which have no plain C.
# Times are processor time, the system's too, without what a run takes that is asked for nothing. CC and CXX name other
# compilers. The argument, if there is one, is how many inserts a run has; it has three times as many queries and marks.
set -eu
top=$(cd "$(dirname "$0")/.." && pwd)
many=${1:-100000}
made=$(mktemp -d)
trap 'rm -rf "$made"' EXIT
cd "$top/crates/gx_bench_runs"
if ! rt run -- claims claims 1 >"$made/log" 2>&1; then
    cat "$made/log"
    exit 1
fi
"${CC:-gcc}" -O2 -o "$made/jumps" "$top/bench/tree.c"
"${CC:-gcc}" -O2 -D'AND=&' -o "$made/no_jumps" "$top/bench/tree.c"
boost= space=
if echo '#include <boost/geometry/index/rtree.hpp>' | "${CXX:-g++}" -E -x c++ - >/dev/null 2>&1; then
    "${CXX:-g++}" -O3 -DBOOST_ALLOW_DEPRECATED_HEADERS -o "$made/boost" "$top/bench/boost.cpp"
    "${CXX:-g++}" -O3 -DBOOST_ALLOW_DEPRECATED_HEADERS -DDIMENSIONS=3 -o "$made/space" "$top/bench/boost.cpp"
    boost=$made/boost space=$made/space
fi
cd "$made"
python3 - "$many" "$boost" "$space" "$top/crates/gx_bench_runs/out/gx_bench_runs" "$made/jumps" "$made/no_jumps" <<'P'
import resource, statistics, subprocess, sys

def run(program, kind, count):
    before = resource.getrusage(resource.RUSAGE_CHILDREN)
    printed = subprocess.run([*program, kind, str(count)], check=True, capture_output=True, text=True).stdout
    after = resource.getrusage(resource.RUSAGE_CHILDREN)
    return after.ru_utime + after.ru_stime - before.ru_utime - before.ru_stime, int(printed)

def run_all(kind, count):
    times, sums = zip(*[run(program, kind, count) for program in programs])
    if len(set(sums)) > 1:
        sys.exit(f"{kind} {count}: the sums differ: {sums}")
    return times

def beside_boost(kind, count, words, of=""):
    rates = []
    for _ in range(9):
        took, sums = zip(*[[a - b for a, b in zip(run(*ask, count), run(*ask, 0))] for ask in words])
        rates.append([count / t / 1e3 for t in took])
        if kind == "queries" and len(set(sums)) > 1:
            sys.exit(f"{kind} {count}: the sums differ: {sums}")
    rate = [statistics.median(r[i] for r in rates) for i in range(len(words))]
    told = "; ".join(f"{word} {r:.0f}, ratio {rate[0] / r:.2f}" for (_, word), r in zip(words[1:], rate[1:]))
    print(f"{kind}{of}: proved {rate[0]:.0f} thousand a second; Boost {told}")

many, proved = int(sys.argv[1]), sys.argv[4]
programs = [[proved, "tree"], *([program] for program in sys.argv[5:])]
run_all("pages", many)
for kind, count in [("inserts", many), ("queries", 3 * many), ("marks", 3 * many)]:
    rates, ratios = [], []
    for _ in range(9):
        took = [t - n for t, n in zip(run_all(kind, count), run_all(kind, 0))]
        rates.append([count / t / 1e3 for t in took])
        ratios.append([t / took[0] for t in took])
    rate = [statistics.median(r[i] for r in rates) for i in range(3)]
    ratio = [statistics.median(r[i] for r in ratios) for i in range(3)]
    print(f"{kind}: proved {rate[0]:.0f} thousand a second; C {rate[1]:.0f}, ratio {ratio[1]:.2f}; without jumps {rate[2]:.0f}, ratio {ratio[2]:.2f}")
for ours, boost, of in [("tree", sys.argv[2], ""), ("space", sys.argv[3], " of boxes of space")]:
    if boost:
        beside_boost("inserts", many, [([proved, ours], "inserts"), ([boost], "inserts")], of)
        beside_boost("queries", 3 * many, [([proved, ours], "queries"), ([boost], "queries"), ([boost], "kept")], of)
P
