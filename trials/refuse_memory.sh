#!/usr/bin/env bash
# Refuses memory to the built program: each allocation in turn, of scripts in memory and on a file, of a format, of a dump and
# of a verification. The answer is then the ample one, or `refused 10 memory`, of the program or of one search or write; and what
# was refused is answered amply when it is asked again. Then every allocation from the end of an opening on, through inserts, deletes,
# commits, aborts, splits, checkpoints and the settling at the end: only a write's look may be refused memory. Takes the
# program's path, or proves and builds the one of this checkout, and perhaps `quick`, for a few rows alone. The last line counts.
set -euo pipefail
top="$(cd "$(dirname "${BASH_SOURCE[0]}")/.." && pwd)"
program="$top/crates/gx_front/out/gx_front"
if [ $# -ge 1 ]; then program="$(realpath "$1")"; else "$top/gist" plain < /dev/null; fi
work="$(mktemp -d)"
trap 'rm -rf "$work"' EXIT
"${CC:-cc}" -O2 -shared -fPIC -o "$work/refuse.so" "$top/trials/refuse_memory.c" -ldl
cd "$work"
python3 "$top/trials/refuse_memory.py" "$program" "$work/refuse.so" "${2:-all}"
