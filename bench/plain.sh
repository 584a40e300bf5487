#!/usr/bin/env bash
# Times `gist plain` with long lists: 100,000 inserts in transactions of 100; and, over 10,000 entries, 1,600
# searches in transactions that first delete 500 entries, and in ones that don't. Takes the program's path, or builds the
# one of this checkout.
set -euo pipefail
top="$(cd "$(dirname "${BASH_SOURCE[0]}")/.." && pwd)"
if [ $# -eq 1 ]; then
    program="$1"
else
    "$top/gist" plain < /dev/null
    program="$top/crates/gx_front/out/gx_front"
fi
script="$(mktemp)"
trap 'rm -f "$script"' EXIT

# ENTRIES DELETES SEARCHES: that many inserts, and then 100 transactions of so many deletes and searches each.
make_script() {
    awk -v entries="$1" -v deletes="$2" -v searches="$3" 'BEGIN {
        srand(7)
        for (row = 0; row < entries; row++) {
            if (row % 100 == 0) print "1 BEGIN"
            x = int(rand() * 1000000); y = int(rand() * 1000000)
            box[row] = x " " y " " x + int(rand() * 1000) " " y + int(rand() * 1000)
            print "1 INSERT " row " " box[row]
            if (row % 100 == 99) print "1 COMMIT"
        }
        for (t = 0; t < 100 && searches > 0; t++) {
            print "1 BEGIN"
            for (row = 0; row < deletes; row++) print "1 DELETE " row " " box[row]
            for (i = 0; i < searches; i++) {
                x = int(rand() * 1000000); y = int(rand() * 1000000)
                print "1 OVERLAP " x " " y " " x + 30000 " " y + 30000
            }
            print "1 ABORT"
        }
    }' > "$script"
}

# NAME: the script's time, and a sum of what it writes.
run_script() {
    local started ended
    started=$(date +%s%N)
    sum=$("$program" plain < "$script" | cksum)
    ended=$(date +%s%N)
    echo "$1: $(((ended - started) / 1000000)) ms for $(wc -l < "$script") lines (sum ${sum%% *})"
}

make_script 100000 0 0
run_script "100,000 inserts"
make_script 10000 0 16
run_script "1,600 searches"
make_script 10000 500 16
run_script "1,600 searches after 500 deletes each"
