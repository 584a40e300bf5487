#!/bin/sh
# Builds the program that looks at pages through frames, and the same in plain C, compares what both read, and times both.
# Times are processor time, the system's too, without what a run that looks at nothing takes. CC names another compiler.
# The argument, if there is one, is how many looks a run has at pages that are in frames; it has a fiftieth of that at others.
set -eu
top=$(cd "$(dirname "$0")/.." && pwd)
looks=${1:-50000000}
made=$(mktemp -d)
trap 'rm -rf "$made"' EXIT
cd "$top/crates/gx_bench_runs"
if ! rt run -- claims claims 1 >"$made/log" 2>&1; then
    cat "$made/log"
    exit 1
fi
"${CC:-gcc}" -O2 -o "$made/pool" "$top/bench/pool.c"
cd "$made"
python3 - "$top/crates/gx_bench_runs/out/gx_bench_runs" "$made/pool" "$looks" <<'P'
import resource, statistics, subprocess, sys

def run(program, kind, looks):
    before = resource.getrusage(resource.RUSAGE_CHILDREN)
    printed = subprocess.run([*program, kind, str(looks)], check=True, capture_output=True, text=True).stdout
    after = resource.getrusage(resource.RUSAGE_CHILDREN)
    return after.ru_utime + after.ru_stime - before.ru_utime - before.ru_stime, printed

proved, plain, many = [sys.argv[1], "pool"], [sys.argv[2]], int(sys.argv[3])
for kind, looks in [("hits", many), ("misses", many // 50)]:
    rates, ratios = [], []
    for _ in range(7):
        nothing = [run(program, kind, 0)[0] for program in (proved, plain)]
        times, sums = zip(*[run(program, kind, looks) for program in (proved, plain)])
        if sums[0] != sums[1]:
            sys.exit(f"{kind}: the sums differ: {sums}")
        took = [t - n for t, n in zip(times, nothing)]
        rates.append([looks / t / 1e6 for t in took])
        ratios.append(took[1] / took[0])
    middle = [statistics.median(r[i] for r in rates) for i in (0, 1)]
    print(f"{kind}: proved {middle[0]:.2f}, plain C {middle[1]:.2f} million a second, ratio {statistics.median(ratios):.2f}")
P
