#!/bin/sh
# Builds a part of the proved code and the same in plain C, compares what both do over many seeded inputs, and times both.
#
#   bench/parts.sh records|scan|split [SEED]
#
# CC names another compiler.
set -eu
top=$(cd "$(dirname "$0")/.." && pwd)
part="${1:?records, scan or split}"
shift
made=$(mktemp -d)
trap 'rm -rf "$made"' EXIT
cd "$top/crates/gx_bench"
if ! rt lib >"$made/log" 2>&1; then
    cat "$made/log"
    exit 1
fi
"${CC:-gcc}" -O2 -o "$made/part" "$top/bench/$part.c" out/libgx_bench.a "$(dirname "$(rt doc)")/c/liblibc_c.a"
"$made/part" "$@"
