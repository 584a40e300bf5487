#!/usr/bin/env bash
# Draws runs of the storage beside a tree in memory, over the four greatest numbers of entries a node and two numbers of frames
# that the gate has: whole runs of so many steps, and for each call of the device of a shorter run one in which it fails once and
# one in which the machine stops there. Prints what each was, or the first difference, with status 1. The arguments, if there are
# any, are a first seed, how many seeds, the steps of a whole run, the calls, and the path of `gx_device_runs`; else that is
# proved and built from this checkout.
set -euo pipefail
top="$(cd "$(dirname "${BASH_SOURCE[0]}")/.." && pwd)"
first="${1:-100}"
seeds="${2:-10}"
steps="${3:-4000}"
calls="${4:-400}"
program="${5:-}"
if [ -z "$program" ]; then
    made="$(mktemp)"
    trap 'rm -f "$made"' EXIT
    (cd "$top/crates/gx_device_runs" && rt run < /dev/null) > "$made" 2>&1 || { cat "$made"; exit 1; }
    program="$top/crates/gx_device_runs/out/gx_device_runs"
fi
for ((seed = first; seed < first + seeds; seed++)); do
    for most in 4 5 8 100; do
        for frames in 16 64; do
            printf 'storage whole %s %s %s %s\n' "$most" "$frames" "$seed" "$steps"
            printf 'storage fail %s %s %s 400 0 1 %s\n' "$most" "$frames" "$seed" "$calls"
        done
    done
done | "$program"
