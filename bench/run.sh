#!/usr/bin/env bash
# Times `gist run` over a file: inserts in transactions of a hundred, in random order and in order along the plane (in strips by x, in each by
# y); overlap queries of some ten hits; inserts each with its commit; and deletes of random rows in transactions of a hundred; beside the
# same script done by SQLite's R*Tree (write-ahead log, full sync), and beside a C program that makes the same writes and syncs and nothing
# else. Queries are asked in transactions of sixteen, which are aborted, so that no commit is synced. Of each load it says what the device
# was asked for: bytes and syncs an insert.
#
#   bench/run.sh [INSERTS QUERIES SINGLES [PROGRAM]]
#
# The counts are 100000, 100000 and 10000 if they aren't given; SINGLES is also how many rows are deleted. With SLOW=1 each sync of a file
# takes a millisecond more. Without PROGRAM the one of this checkout is proved and built. FRAMES
# (4096) names the frames, FOLDER (/tmp) where the files lie. Needs libsqlite3-dev and strace.
set -euo pipefail
top="$(cd "$(dirname "${BASH_SOURCE[0]}")/.." && pwd)"
inserts="${1:-100000}"
queries="${2:-100000}"
singles="${3:-10000}"
frames="${FRAMES:-4096}"
if [ $# -ge 4 ]; then
    program="$(realpath "$4")"
else
    "$top/gist" plain < /dev/null
    program="$top/crates/gx_front/out/gx_front"
fi
work="$(mktemp -d -p "${FOLDER:-/tmp}")"
trap 'rm -rf "$work"' EXIT
cc -O2 -o "$work/run_sqlite" "$top/bench/peers/run_script.c" "$top/bench/peers/sqlite.c" -lsqlite3
cc -O2 -o "$work/run_limit" "$top/bench/run_limit.c"

# Boxes of up to 64 by 64 in a square in which some ten lie in a window of the queries.
side=$(awk -v n="$inserts" 'BEGIN { printf "%d", 64 * sqrt(n) }')
draw='function draw(n) { seed = (seed * 16807) % 2147483647; return int(seed / 2147483647 * n) }
      function box(most,   x, y) { x = draw(side); y = draw(side); return x " " y " " x + draw(most) " " y + draw(most) }'
awk -v n="$inserts" -v side="$side" "$draw"'BEGIN { seed = 1; for (i = 1; i <= n; i++) { if (i % 100 == 1) print "1 BEGIN"; print "1 INSERT " i " " box(64); if (i % 100 == 0 || i == n) print "1 COMMIT" } }' > "$work/inserts"
awk -v n="$queries" -v side="$side" "$draw"'BEGIN { seed = 2; for (i = 1; i <= n; i++) { if (i % 16 == 1) print "1 BEGIN"; x = draw(side); y = draw(side); print "1 OVERLAP " x " " y " " x + 170 " " y + 170; if (i % 16 == 0 || i == n) print "1 ABORT" } }' > "$work/queries"
grep INSERT "$work/inserts" | awk -v side="$side" '{ printf "%d %d %s\n", int($4 / (side / 32)), $5, $0 }' | sort -k1,1n -k2,2n | cut -d" " -f3- \
    | awk -v n="$inserts" '{ if (NR % 100 == 1) print "1 BEGIN"; print; if (NR % 100 == 0 || NR == n) print "1 COMMIT" }' > "$work/ordered"
grep INSERT "$work/inserts" | awk -v n="$inserts" -v few="$singles" "$draw"'{ line[NR] = $0 } END { seed = 4; for (i = 1; i <= few && i <= n; i++) {
    j = i + draw(n - i + 1); it = line[j]; line[j] = line[i]; sub("INSERT", "DELETE", it)
    if (i % 100 == 1) print "1 BEGIN"; print it; if (i % 100 == 0 || i == few || i == n) print "1 COMMIT" } }' > "$work/deletes"
awk -v n="$singles" -v from="$inserts" -v side="$side" "$draw"'BEGIN { seed = 3; for (i = 1; i <= n; i++) { print "1 BEGIN"; print "1 INSERT " from + i " " box(64); print "1 COMMIT" } }' > "$work/singles"

slow=
if [ "${SLOW:-0}" = 1 ]; then
    cc -O2 -std=c11 -shared -fPIC -o "$work/slow_sync.so" "$top/bench/peers/slow_sync.c"
    slow="$work/slow_sync.so"
fi

# COMMAND..: its seconds by the clock, its processor seconds and its memory, of standard input to a file of replies.
timed() {
    /usr/bin/time -f '%e %U %S %M' -o "$work/time" env LD_PRELOAD="$slow" "$@" > "$work/replies" 2> "$work/faults" \
        || { cat "$work/faults"; exit 1; }
}

# NAME COUNT SCRIPT INDEX BASE: one line of what both took
compare() {
    local name="$1" count="$2" script="$3" ours theirs
    timed "$program" run "$4" --frames "$frames" < "$script"
    ours="$(cat "$work/time")"
    timed "$work/run_sqlite" "$5" < "$script"
    theirs="$(cat "$work/time")"
    echo "$name $count $ours $theirs" | awk '{ printf "%s: %d; gist %.2f s by the clock (%.0f a second), %.2f s of processor, %.0f MB; SQLite %.2f s (%.0f a second), %.2f s of processor, %.0f MB; rates %.2f, by processor %.2f\n",
        $1, $2, $3, $2 / $3, $4 + $5, $6 / 1024, $7, $2 / $7, $8 + $9, $10 / 1024, $7 / $3, ($8 + $9) / ($4 + $5) }'
}

# SCRIPT INDEX: the calls that a run makes of the file, to "$work/list"
list_calls() {
    strace -f -e trace=pwrite64,fsync,fdatasync -o "$work/calls" "$program" run "$2" --frames "$frames" < "$1" > /dev/null
    awk '/pwrite64\(/ { n = split($0, part, ", "); sub(/\).*/, "", part[n]); print "w " part[n] " " part[n - 1] } /sync\(/ { print "s" }' "$work/calls" > "$work/list"
}

# NAME COUNT SCRIPT: a load of a new index, and what it asks the device for
load() {
    rm -f "$work/index" "$work/copy" "$work/base"*
    "$program" format "$work/index" "$pages" 100
    cp "$work/index" "$work/copy"
    compare "$1" "$2" "$3" "$work/index" "$work/base"
    list_calls "$3" "$work/copy"
    awk -v n="$2" '/^w/ { bytes += $3; writes++ } /^s/ { syncs++ } END { printf "  %d bytes, %.2f writes and %.3f syncs an insert\n", bytes / n, writes / n, syncs / n }' "$work/list"
}

pages=$(((inserts + singles) / 40 + 64))
[ "$pages" -le 65536 ] || pages=65536
load ordered "$inserts" "$work/ordered"
load inserts "$inserts" "$work/inserts"
compare queries "$queries" "$work/queries" "$work/index" "$work/base"

# the same singles on a copy under strace, whose calls are then made with nothing else
cp "$work/index" "$work/copy"
list_calls "$work/singles" "$work/copy"
compare singles "$singles" "$work/singles" "$work/index" "$work/base"
echo "singles, the writes and syncs alone: $(LD_PRELOAD="$slow" "$work/run_limit" "$work/copy" < "$work/list")"
compare deletes "$singles" "$work/deletes" "$work/index" "$work/base"
timed "$program" run "$work/index" --frames "$frames" < /dev/null
echo "opening and settling: $(awk '{ printf "%.2f s, %.0f MB", $1, $4 / 1024 }' "$work/time")"
