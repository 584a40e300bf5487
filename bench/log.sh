#!/bin/sh
# Builds the program that writes batches of a log to a file, and the same device calls in plain C, and times both on one file
# system, the one and the other in turn. Times are of the clock, without what a run that writes nothing takes.
# The first argument, if there is one, is how many times 128 batches a run writes; the second a folder on the file system to be
# measured. CC names another compiler.
set -eu
top=$(cd "$(dirname "$0")/.." && pwd)
rounds=${1:-3}
made=$(mktemp -d ${2:+-p "$2"})
trap 'rm -rf "$made"' EXIT
cd "$top/crates/gx_bench_runs"
if ! rt run -- claims claims 1 >"$made/log" 2>&1; then
    cat "$made/log"
    exit 1
fi
"${CC:-gcc}" -O2 -o "$made/calls" "$top/bench/log.c"
cd "$made"
df -T . | tail -1 | awk '{ print "on " $2 }'
python3 - "$top/crates/gx_bench_runs/out/gx_bench_runs" "$made/calls" "$rounds" <<'P'
import statistics, subprocess, sys, time

def run(words):
    began = time.perf_counter()
    subprocess.run(words, check=True, capture_output=True)
    return time.perf_counter() - began

proved, plain, rounds = sys.argv[1], sys.argv[2], int(sys.argv[3])
batches = 128 * rounds
for kind in ["commit", "notes", "leaves"]:
    rates, ratios = [], []
    for _ in range(9):
        took = [run([proved, "log", kind, str(rounds)]) - run([proved, "log", kind, "0"]), run([plain, str(rounds)]) - run([plain, "0"])]
        rates.append([batches / t for t in took])
        ratios.append(took[1] / took[0])
    middle = [statistics.median(r[i] for r in rates) for i in (0, 1)]
    print(f"{kind}: proved {middle[0]:.0f}, bare calls {middle[1]:.0f} batches a second, ratio {statistics.median(ratios):.2f}")
P
