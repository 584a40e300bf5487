#!/usr/bin/env bash
# Compares gist, in process and asked by its client for C over pipes, with other indexes of boxes: SQLite's R*Tree, PostgreSQL's GiST,
# libspatialindex's R-tree in a file, and Boost's in memory. All do the same seeded workload (peers/workload.c), and what they find is compared. Prints two tables. One has
# gist's rates, and their ratio to each peer's; of bytes, gist's by the peer's. The other has the microseconds of processor that each thing
# took, of all processes that an index has, and how many times as many each peer needs.
#
#   bench/peers.sh [ENTRIES SEARCHES SINGLES [PROGRAM]]
#
# The counts are 100000, 100000 and 2000 where they aren't given. Without PROGRAM the one of this checkout is proved and built; the library
# in process is the one of c/out, which `make -C c embedded` proves and builds. A peer that
# isn't installed is left out, and that is said: Debian's packages are libsqlite3-dev, postgresql with libpq-dev, libspatialindex-dev and
# libboost-dev. ROUNDS (3) is how often all is done, in turn; ratios are medians of the rounds' own. FOLDER (/tmp) is where the files lie.
# With SLOW=1 each sync of a file takes a millisecond more. Where GROWTH names other numbers of entries (GROWTH='10000 1000000'), all is done
# over these too, and a third table has each. CHART names a file that gets the first table as bars (chart.py).
set -euo pipefail
top="$(cd "$(dirname "${BASH_SOURCE[0]}")/.." && pwd)"
entries="${1:-100000}"
searches="${2:-100000}"
singles="${3:-2000}"
if [ $# -ge 4 ]; then
    GIST="$(realpath "$4")"
else
    "$top/gist" plain < /dev/null
    GIST="$top/crates/gx_front/out/gx_front"
fi
export GIST
work="$(mktemp -d -p "${FOLDER:-/tmp}")"
server=
# Ends what the script started, and removes what it made.
clear_up() {
    [ -z "$server" ] || kill -INT "$server" 2> /dev/null || true
    [ -z "$server" ] || wait "$server" || true
    rm -rf "$work"
}
trap clear_up EXIT
chmod 755 "$work"

flags=(-O2 -std=c11 -Wall -Wextra -pthread "-I$top/c")
from="$top/bench/peers"
peers=()
library="$top/c/out/libgist.a"
if [ -r "$library" ]; then
    peers+=(process)
    cc "${flags[@]}" -DIN_PROCESS -o "$work/process" "$from/workload.c" "$from/gist.c" "$library"
else
    echo "left out: gist in process, for want of $library" >&2
fi
peers+=(pipes)
cc "${flags[@]}" -o "$work/pipes" "$from/workload.c" "$from/gist.c" "$top"/c/gist_*.c

# NAME HEADER PACKAGE: whether a peer can be built; says what is missing.
has() {
    if echo "#include <$2>" | c++ -E -x c++ -I/usr/include/postgresql - > /dev/null 2>&1; then
        peers+=("$1")
    else
        echo "left out: $1, for want of $3" >&2
        false
    fi
}

if has sqlite sqlite3.h libsqlite3-dev; then
    cc "${flags[@]}" -o "$work/sqlite" "$from/workload.c" "$from/sqlite.c" -lsqlite3
fi
binaries="$(pg_config --bindir 2> /dev/null || true)"
if [ ! -x "$binaries/initdb" ]; then
    echo "left out: postgres, for want of postgresql" >&2
elif has postgres libpq-fe.h libpq-dev; then
    cc "${flags[@]}" "-I$(pg_config --includedir)" -o "$work/postgres" "$from/workload.c" "$from/postgres.c" -lpq
fi
if has spatialindex spatialindex/capi/sidx_api.h libspatialindex-dev; then
    cc "${flags[@]}" -o "$work/spatialindex" "$from/workload.c" "$from/spatialindex.c" -lspatialindex_c
fi
if has boost boost/geometry/index/rtree.hpp libboost-dev; then
    cc "${flags[@]}" -c -o "$work/workload.o" "$from/workload.c"
    c++ -O3 -DBOOST_ALLOW_DEPRECATED_HEADERS -pthread -o "$work/boost" "$from/boost.cpp" "$work/workload.o"
fi
slow=
if [ "${SLOW:-0}" = 1 ]; then
    cc -O2 -std=c11 -shared -fPIC -o "$work/slow_sync.so" "$from/slow_sync.c"
    slow="$work/slow_sync.so"
fi

source "$from/server.sh"
[ ! -x "$work/postgres" ] || start_postgres "$work" "$binaries" "$slow"

# (these are several words)
# shellcheck disable=SC2086
sizes="$(printf '%s\n' "$entries" ${GROWTH-} | sort -nu)"

# ROUND PEER ENTRIES: a separate run, on new files.
run() {
    local one="$work/index" two="$work/second"
    rm -f "$one" "$one"[.-]* "$two" "$two"[.-]*
    if [ "$2" = postgres ]; then
        one="$work/server"
        two="$one"
        PEER_PID="$server" "$work/$2" "$one" "$two" "$3" "$searches" "$singles"
    else
        LD_PRELOAD="$slow" "$work/$2" "$one" "$two" "$3" "$searches" "$singles"
    fi > "$work/told.$2.$3.$1"
}
for round in $(seq "${ROUNDS:-3}"); do
    for size in $sizes; do
        for peer in "${peers[@]}"; do
            run "$round" "$peer" "$size"
        done
    done
done

python3 - "$work" "${ROUNDS:-3}" "$entries" "$sizes" "${peers[@]}" <<'P' | tee "$work/tables"
import statistics, sys

work, rounds, entries, sizes, peers = sys.argv[1], int(sys.argv[2]), int(sys.argv[3]), [*map(int, sys.argv[4].split())], sys.argv[5:]
TITLES = {"process": "gist, in process", "pipes": "gist, by pipes", "sqlite": "SQLite", "postgres": "PostgreSQL", "spatialindex": "libspatialindex", "boost": "Boost"}
RATE, PROCESSOR = 0, 1

def read(peer, size, number):
    """What a run said: figures by work, and what its searches found."""
    with open(f"{work}/told.{peer}.{size}.{number}") as lines:
        told = [line.rstrip("\n").split("\t") for line in lines]
    return ({work: [*map(float, figures)] for work, *figures in told if not work.startswith("= ")},
            {work: found for work, *found in told if work.startswith("= ")})

told = {(peer, size): [read(peer, size, number + 1) for number in range(rounds)] for size in sizes for peer in peers}
for (peer, size), runs in told.items():
    wanted = told[peers[0], size][0][1]
    for _, found in runs:
        if found != wanted:
            sys.exit(f"{peer} found something else among {size}: {found}, and {peers[0]} {wanted}")

def cell(peer, size, work, kind):
    """The first one's own figure; or its ratio to a peer's, of processor time the peer's to its own."""
    figures = [[it[0].get(work) for it in told[one, size]] for one in (peers[0], peer)]
    if None in figures[1] or any(it[0] == 0 for it in figures[1]):
        return "-"
    figures = [[it[kind] for it in one] for one in figures]
    if peer == peers[0]:
        figure = statistics.median(figures[1])
        return f"{figure:.1f}" if kind == PROCESSOR else f"{figure / 1e6:.1f} MB" if work.startswith("bytes") else f"{figure:,.0f}"
    if kind == PROCESSOR:
        figures.reverse()
    return f"{statistics.median(a / b for a, b in zip(*figures)):.2f}"

def tell(*cells):
    print(f"|{'|'.join(cells)}|")

def table(own, rows, kind):
    """Rows, each of a name, how many entries there are, and the work."""
    tell("Work", own, *(TITLES[it] for it in peers[1:]))
    tell(*["---"] * (1 + len(peers)))
    for name, size, work in rows:
        tell(name, *(cell(it, size, work, kind) for it in peers))
    print()

NAMES = {"searches, a tenth of all": f"searches, {entries // 10:,} hits", "single commits of four writers": "by four writers",
         "single commits of four writers in turn": "by four in turn"}
RATES = ("load, random order", "load, local order", "searches, ten hits", "searches, ten hits, by sixteen", "searches, a tenth of all",
         "deletes", "single commits", "single commits of four writers", "single commits of four writers in turn")
BYTES = ("bytes on disk", "bytes of memory")
own = TITLES[peers[0]]
table(f"{own}, a second", [(NAMES.get(it, it), entries, it) for it in RATES + BYTES], RATE)
table(f"{own}, microseconds of processor", [(NAMES.get(it, it), entries, it) for it in RATES], PROCESSOR)
if len(sizes) > 1:
    grown = [(f"{it}; {size:,}", size, it) for it in RATES[:7] + BYTES for size in sizes]
    table(f"{own}, a second, as it grows", grown, RATE)
print(f"{entries:,} entries; what {len(told[peers[0], entries][0][1])} series of searches found is the same in all {len(peers)}, "
      f"in each of {rounds} rounds.")
P
[ -z "${CHART-}" ] || "$top/bench/chart.py" < "$work/tables" > "$CHART"
