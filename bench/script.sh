#!/usr/bin/env bash
# Times `gist plain` on a script of 100,000 lines: 10,000 inserts in transactions of 100, then overlap searches, 16 a
# transaction.
set -euo pipefail
top="$(cd "$(dirname "${BASH_SOURCE[0]}")/.." && pwd)"
script="$(mktemp)"
trap 'rm -f "$script"' EXIT
awk 'BEGIN {
    srand(7)
    for (row = 0; row < 10000; row++) {
        if (row % 100 == 0) { print "1 BEGIN"; lines++ }
        x = int(rand() * 1000000); y = int(rand() * 1000000)
        print "1 INSERT " row " " x " " y " " x + int(rand() * 1000) " " y + int(rand() * 1000); lines++
        if (row % 100 == 99) { print "1 COMMIT"; lines++ }
    }
    while (lines < 100000) {
        print "1 BEGIN"; lines++
        for (i = 0; i < 16 && lines < 100000; i++) {
            x = int(rand() * 1000000); y = int(rand() * 1000000)
            print "1 OVERLAP " x " " y " " x + 30000 " " y + 30000; lines++
        }
        if (lines < 100000) { print "1 COMMIT"; lines++ }
    }
}' > "$script"
"$top/gist" plain < /dev/null
echo "$(wc -l < "$script") lines, $(wc -c < "$script") bytes"
python3 - "$top/gist" "$script" <<'P'
import subprocess, sys, time

def most_memory(pid):
    with open(f"/proc/{pid}/status") as status:
        return next((int(line.split()[1]) for line in status if line.startswith("VmHWM")), 0)

started = time.monotonic()
lines = peak = 0
with open(sys.argv[2], "rb") as script:
    program = subprocess.Popen([sys.argv[1], "plain"], stdin=script, stdout=subprocess.PIPE)
    for chunk in iter(lambda: program.stdout.read(1 << 20), b""):
        lines += chunk.count(b"\n")
        peak = max(peak, most_memory(program.pid))
status = program.wait()
took = time.monotonic() - started
print(f"{took:.2f} seconds, {peak} KiB at most, {lines} lines written, status {status}")
P
