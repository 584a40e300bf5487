#!/usr/bin/env bash
# Opens and verifies random images with damage, a third each of boxes, of intervals, and of moments of the life that
# `gx_damage_runs` is run on, and has the plain reader read each: an image opens and verifies, or is refused by number, as
# that finds it, what is said of it is found there, and what opens is sound and has the same set. Says how many ended how,
# or on which image they differ, with status 1. The arguments, if there are any, are a seed, a number of images of each
# kind, and the path of `gx_damage_runs`; else that of this checkout is proved and built. A million takes half an hour:
# `trials/damage.sh 1 333334`.
set -euo pipefail
top="$(cd "$(dirname "${BASH_SOURCE[0]}")/.." && pwd)"
seed="${1:-1}"
images="${2:-3334}"
program="${3:-}"
if [ -z "$program" ]; then
    made="$(mktemp)"
    trap 'rm -f "$made"' EXIT
    (cd "$top/crates/gx_damage_runs" && rt run < /dev/null) > "$made" 2>&1 || { cat "$made"; exit 1; }
    program="$top/crates/gx_damage_runs/out/gx_damage_runs"
fi
{
    grep -E '^(new |[0-9]|stop$)' "$top/crates/gx_damage_runs/stdin"
    printf '%s %s %s\n' boxes "$seed" "$images" intervals "$seed" "$images" moments "$seed" "$images"
} | "$program"
