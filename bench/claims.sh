#!/bin/sh
# Builds the program that asks full tables of claims, and the same in plain C, compares what both answer, and times both.
# The argument, if there is one, is how often each is asked. CC names another compiler.
set -eu
top=$(cd "$(dirname "$0")/.." && pwd)
asks=${1:-3000000}
made=$(mktemp -d)
trap 'rm -rf "$made"' EXIT
cd "$top/crates/gx_bench_runs"
if ! rt run -- claims claims 1 >"$made/log" 2>&1; then
    cat "$made/log"
    exit 1
fi
"${CC:-gcc}" -O2 -o "$made/claims" "$top/bench/claims.c"
python3 - "$top/crates/gx_bench_runs/out/gx_bench_runs" "$made/claims" "$asks" <<'P'
import resource, subprocess, sys

def run(program, kind, asks):
    before = resource.getrusage(resource.RUSAGE_CHILDREN).ru_utime
    printed = subprocess.run([*program, kind, str(asks)], check=True, capture_output=True, text=True).stdout
    return resource.getrusage(resource.RUSAGE_CHILDREN).ru_utime - before, printed

proved, plain, asks = [sys.argv[1], "claims"], [sys.argv[2]], int(sys.argv[3])
for kind in ["claims", "searches", "sweeps"]:
    best = [1e9, 1e9]
    for _ in range(5):
        times, answers = zip(*[run(program, kind, asks) for program in (proved, plain)])
        if answers[0] != answers[1]:
            sys.exit(f"{kind}: the sums of answers differ: {answers}")
        best = [min(b, t) for b, t in zip(best, times)]
    if min(best) <= 0:
        sys.exit(f"{kind}: {asks} of them take no time that could be told: ask for more")
    rates = [asks / t / 1e6 for t in best]
    print(f"{kind}: proved {rates[0]:.2f}, plain C {rates[1]:.2f} million a second, ratio {rates[0] / rates[1]:.2f}")
P
