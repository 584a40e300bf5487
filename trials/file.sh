#!/usr/bin/env bash
# Runs the programs that work on a file under strace, and compares the calls of the system that they make on it, one by one,
# with what the device is asked: where each read and write begins, how many bytes it has, and which sync follows. Then has
# calls fail, be interrupted and be cut short. The arguments, if there are any, are the paths of `gx_device_runs` and of
# `gx_bench_runs`; else those of this checkout are proved and built. Needs strace. The last line counts the cases.
set -euo pipefail
top="$(cd "$(dirname "${BASH_SOURCE[0]}")/.." && pwd)"
made="$(mktemp -d)"
trap 'rm -rf "$made"' EXIT
if [ $# -eq 2 ]; then
    devices="$(realpath "$1")"
    logs="$(realpath "$2")"
else
    # CRATE WORD..: proves and builds a program, and runs it once with these arguments.
    build() { (cd "$top/crates/$1" && shift && rt run -- "$@" < /dev/null) > "$made/log" 2>&1 || { cat "$made/log"; exit 1; }; }
    build gx_device_runs
    build gx_bench_runs claims claims 1
    devices="$top/crates/gx_device_runs/out/gx_device_runs"
    logs="$top/crates/gx_bench_runs/out/gx_bench_runs"
fi
cd "$made"
python3 - "$devices" "$logs" <<'P'
import os, re, subprocess, sys

devices, logs = sys.argv[1:]
CALLS = "ftruncate,pread64,pwrite64,fsync,fdatasync"
FILES = ["runs.device", "log.device"]
passed, failed = 0, 0

def run(words, lines="", inject=None):
    """Runs a program under strace, and returns its status, what it prints, and the calls that it makes on the file."""
    traced = ["strace", "-f", "-y", "-e", f"trace={CALLS}", "-o", "trace"]
    for file in FILES:
        traced += ["-P", os.path.abspath(file)]
    traced += ["-e", f"inject={inject}"] if inject else []
    ended = subprocess.run(traced + words, input=lines, text=True, capture_output=True)
    with open("trace", encoding="utf-8") as it:
        calls = [call_of(line) for line in it if ".device" in line]
    return ended.returncode, ended.stdout, calls

def call_of(line):
    """One line of a trace: the call, and the numbers behind the bytes (a write's length and offset, say)."""
    name, rest = re.match(r"(?:\d+ +)?(\w+)\(\d+<[^>]*>(.*)", line).groups()
    words = re.sub(r'^, (?:"(?:[^"\\]|\\.)*"\.*|0x\w+)', "", re.split(r"\) +=", rest)[0])
    return (name, *map(int, re.findall(r"\d+", words)))

def case(name, given, wanted):
    global passed, failed
    if given == wanted:
        passed += 1
        return
    failed += 1
    at = next((i for i, (a, b) in enumerate(zip(given, wanted)) if a != b), min(len(given), len(wanted))) if isinstance(given, list) else None
    told = (given, wanted) if at is None else (f"call {at}: {given[at:at + 2]}", wanted[at:at + 2])
    print(f"FAILED {name}: {told[0]}, not {told[1]}")

def fresh():
    for file in filter(os.path.exists, FILES):
        os.remove(file)

def reads(*sectors):
    return [("pread64", 512, 512 * it) for it in sectors]

# A file of four sectors, of which one is written and synced; the second time it has its length.
first = [("ftruncate", 2048), ("pwrite64", 512, 1024), ("fsync",)]
again = [("pwrite64", 512, 1024), ("fdatasync",)]
fresh()
status, told, calls = run([devices], "file write\nfile write\nfile open\nfile create 5\n")
case("a file is reported", told.splitlines(), ["file write: in use", "file write: in use", "file open: 4 sectors, 00 00 c3 00", "file create 5: 5 sectors, 00 00 c3 00"])
case("a file's calls", calls, first + again + reads(0, 1, 2, 3) + [("ftruncate", 2560)] + reads(0, 1, 2, 3))

# An extent of the log: 128 times a body and its gate, each with a sync after it.
SECTORS, PLACES, BODIES, BODY = 16648, 128, 136, 32768
def extent(begins, sync):
    calls = list(begins)
    for k in range(PLACES):
        calls += [("pwrite64", BODY, 512 * (BODIES + 64 * k)), (sync,), ("pwrite64", 512, 512 * (8 + k)), ("fdatasync",)]
        sync = "fdatasync"
    return calls

new_log = extent([("ftruncate", 512 * SECTORS)], "fsync")
status, told, calls = run([logs, "log", "commit", "1"])
case("a log that makes its file", calls, new_log)
case("its status", (status, told), (0, f"{PLACES}\n"))
with open("log.device", "rb") as it:
    bytes_now = it.read()
gate = b"\xa7" + bytes(511)
case("its length", len(bytes_now), 512 * SECTORS)
case("its gates", [bytes_now[512 * (8 + k):512 * (9 + k)] == gate for k in range(PLACES + 1)], PLACES * [True] + [False])
case("its bodies", [bytes_now[512 * (BODIES + 64 * k):][:5].hex() for k in range(PLACES)], PLACES * [bytes_now[512 * BODIES:][:5].hex()])
case("what is before them", any(bytes_now[:512 * 8]), False)
status, told, calls = run([logs, "log", "commit", "1"])
case("a log on a file of its length", calls, extent([], "fdatasync"))

# A call that fails is reported, and none follows it.
FAULTS = {"ftruncate": ["ENOSPC", "EIO"], "pwrite64": ["EIO", "ENOSPC"], "fsync": ["EIO", "ENOSPC"]}
for call, faults in FAULTS.items():
    for fault in faults:
        fresh()
        status, told, calls = run([devices], "file write\n", f"{call}:error={fault}:when=1")
        case(f"{call} that fails by {fault}", told, "file write: not written\n")
        at = next(i for i, it in enumerate(first) if it[0] == call)
        case(f"the calls up to it, {fault}", calls, first[:at + 1])
for call, which in [("pwrite64", 1), ("pwrite64", 2), ("pwrite64", 3), ("pwrite64", 64), ("fsync", 1), ("fdatasync", 1), ("fdatasync", 2), ("fdatasync", 63)]:
    fresh()
    status, told, calls = run([logs, "log", "commit", "1"], inject=f"{call}:error=EIO:when={which}")
    at = [i for i, it in enumerate(new_log) if it[0] == call][which - 1]
    case(f"a log whose {call} fails, the {which}th", calls, new_log[:at + 1])
    case(f"its status, {call} {which}", (status != 0, told), (True, ""))
fresh()
run([devices], "file write\n")
status, told, calls = run([devices], "file open\n", "pread64:error=EIO:when=3")
case("a read that fails gives nothing", told, "file open: 4 sectors, 00 00 00 00\n")

# One that is interrupted is made again; one that is cut short goes on where it was cut; one that writes nothing fails.
fresh()
status, told, calls = run([devices], "file write\n", "pwrite64:error=EINTR:when=1")
case("a write that is interrupted", (told, calls), ("file write: in use\n", first[:2] + first[1:]))
fresh()
status, told, calls = run([devices], "file write\n", "pwrite64:retval=100:when=1")
case("a write that is cut short", (told, calls), ("file write: in use\n", first[:2] + [("pwrite64", 412, 1124)] + first[2:]))
fresh()
status, told, calls = run([devices], "file write\n", "pwrite64:retval=0:when=1")
case("a write of nothing", (told, calls), ("file write: not written\n", first[:2]))
fresh()
run([devices], "file write\n")
status, told, calls = run([devices], "file open\n", "pread64:error=EINTR:when=2")
case("a read that is interrupted", (told, calls), ("file open: 4 sectors, 00 00 c3 00\n", reads(0, 1, 1, 2, 3)))
status, told, calls = run([devices], "file open\n", "pread64:retval=100:when=3")
case("a read that is cut short", calls, reads(0, 1, 2) + [("pread64", 412, 1124)] + reads(3))
status, told, calls = run([devices], "file open\n", "pread64:retval=0:when=3")
case("a read behind the end", told, "file open: 4 sectors, 00 00 00 00\n")

print(f"{passed} passed, {failed} failed")
sys.exit(1 if failed else 0)
P
