#!/usr/bin/env bash
# A million boxes in order along the plane, in an index of 65,536 pages, of which more than half are in use then: it is filled, opened by
# a script, dumped and verified. Takes the program's path, or proves and builds the one of this checkout. The last line counts.
set -euo pipefail
top="$(cd "$(dirname "${BASH_SOURCE[0]}")/.." && pwd)"
program="$top/crates/gx_front/out/gx_front"
if [ $# -eq 1 ]; then program="$(realpath "$1")"; else "$top/gist" plain < /dev/null; fi
# (in memory if there is such a folder, since each split is synced)
[ -w /dev/shm ] && export TMPDIR=/dev/shm
work="$(mktemp -d)"
trap 'rm -rf "$work"' EXIT
cd "$work"
passed=0
failed=0
boxes=1000000
commits=$((boxes / 500))

# NAME WANTED GOT: whether a line is as it has to be.
same() {
    if [ "$2" = "$3" ]; then passed=$((passed + 1)); else failed=$((failed + 1)); echo "FAILED $1: $3, not $2"; fi
}

"$program" format it 65536 48 > /dev/null
last="$(awk -v n="$boxes" 'BEGIN { for (i = 0; i < n; i++) {
    if (i % 500 == 0) print "1 BEGIN"
    print "1 INSERT", i, i, 0, i + 1, 1
    if (i % 500 == 499) print "1 COMMIT" } }' | "$program" run it --frames 4096 | tail -1)"
same "a million boxes" "1 committed $commits" "$last"

found="$(printf '1 BEGIN\n1 EQUAL 9 0 10 1\n1 COMMIT\n' | "$program" run it --frames 4096 | tail -2)"
same "a large index is opened" "1 entry 9 9 0 10 1 1 committed $((commits + 1))" "${found//$'\n'/ }"

"$program" dump it > tree
same "a large index is dumped" "$boxes" "$(grep -c '^entry .* live$' tree)"
used="$(sed -n '1s/.* used \([0-9]*\) .*/\1/p' tree)"
same "more than half of its pages are in use" yes "$([ "$used" -gt 32768 ] && echo yes || echo "$used")"
same "a large index is verified" "ok commits $((commits + 1)) entries $boxes used $used" "$("$program" verify it)"
echo "$passed passed, $failed failed"
[ "$failed" = 0 ]
