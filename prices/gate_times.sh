#!/usr/bin/env bash
# Runs the gate on a fresh clone, all of it anew, whatever this machine has kept of earlier runs, and logs what its parts take,
# in processor seconds: each crate's proof, the second proof of its tests, the build of each program by two compilers, and each
# must-fail edit (the first of a crate proves the crate again, and `(none)` is the check after the last), and the planted bugs of a crate
# that are tried in this run. The last line has
# the whole gate's processor seconds, its time by the clock, and its own last line. `gate_table.sh` makes a table of it. The
# argument, if there is one, is the revision; RT_JOBS says how many crates are proved side by side (as many as there are
# processors). Run it alone on the machine. The gate's own output goes to the file GATE_OUTPUT, if one is named. If GATE_CRATES names
# crates, these and those below them are gated alone.
set -euo pipefail
top="$(cd "$(dirname "${BASH_SOURCE[0]}")/.." && pwd)"
made="$(mktemp -d)"
trap 'rm -rf "$made"' EXIT
git clone -q "$top" "$made/gate"
git -C "$made/gate" checkout -q "${1:-HEAD}"
python3 - "$made/gate" "${GATE_OUTPUT:-/dev/null}" <<'P'
import collections, glob, os, re, resource, shutil, subprocess, sys, time

folder, output = sys.argv[1:]
tick = os.sysconf("SC_CLK_TCK")
seen = {}  # of each process of the prover: what it is for, when it began, and the seconds that it has taken

def kind_of(words, room):
    crate = words[words.index("--crate-name") + 1]
    if os.path.basename(room).startswith("rt-edit-"):
        return "edit", crate, room
    if os.path.basename(os.path.dirname(room)).startswith("planted-"):
        return "planted", crate, ""
    if "--crate-checked" in words:
        return "runs", crate, words[words.index("--backend") + 1]
    return ("tests" if any(word.endswith("_tests.o") for word in words) else "proof"), crate, ""

def fields_of(pid):
    with open(f"/proc/{pid}/stat", encoding="utf-8") as it:
        return it.read().rpartition(")")[2].split()

# whether a process is this gate's, and not that of another one beside it
def is_of(gate, pid):
    while pid not in (0, gate):
        pid = int(fields_of(pid)[1])
    return pid == gate

def look(gate, pid):
    with open(f"/proc/{pid}/cmdline", encoding="utf-8") as it:
        words = it.read().split("\0")
    if not words[0].endswith("/bin/rattle") or "--crate-name" not in words or not is_of(gate, pid):
        return
    room = os.readlink(f"/proc/{pid}/cwd")
    fields = fields_of(pid)
    began = int(fields[19])
    seen[pid, began] = kind_of(words, room), began, (int(fields[11]) + int(fields[12])) / tick

def sample(gate):
    for pid in map(int, filter(str.isdigit, os.listdir("/proc"))):
        try:
            look(gate, pid)
        except (OSError, ValueError, IndexError):
            pass

def run(words, told):
    """Runs a command to its end, and returns its last line."""
    gate = subprocess.Popen(words, cwd=folder, stdin=subprocess.DEVNULL, stdout=subprocess.PIPE, stderr=subprocess.STDOUT)
    os.set_blocking(gate.stdout.fileno(), False)
    text = b""
    while gate.poll() is None:
        sample(gate.pid)
        text += gate.stdout.read() or b""
        time.sleep(0.2)
    text += gate.stdout.read() or b""
    told.write(text.decode(errors="replace"))
    told.flush()
    return text.decode(errors="replace").rstrip("\n").rpartition("\n")[2]

began = time.time()
named = os.environ.get("GATE_CRATES", "").split()
with open(output, "w+", encoding="utf-8") as told:
    # (some kits keep proofs between runs unless they are told otherwise, and only they gate crates by name)
    with open(shutil.which("rt"), encoding="utf-8") as it:
        anew = ["--anew", *named] if "--anew" in it.read() else []
    last = run(["rt", "ci", *anew], told)
    turn = subprocess.run([".ci/turns"], cwd=folder, stdout=subprocess.PIPE, text=True).stdout.split()
    last += "; planted: " + run(["tools/planted.py", *(it for it in turn if not named or it in named)], told)
clock = time.time() - began
used = resource.getrusage(resource.RUSAGE_CHILDREN)

parts, first = collections.Counter(), {}
for kind, start, seconds in seen.values():
    parts[kind] += seconds
    first[kind] = min(start, first.get(kind, start))
rooms = collections.defaultdict(list)
for kind in sorted(parts, key=first.get):
    name, crate, room = kind
    if name == "edit":
        rooms[crate].append(parts[kind])
    else:
        print(f"{name} {crate} {parts[kind]:.1f} {room}".rstrip())
for crate, times in rooms.items():
    edits = sorted(os.path.basename(it)[:-len(".edit")] for it in glob.glob(f"{folder}/crates/{crate}/must-fail/*.edit"))
    for name, seconds in zip([*edits, "(none)"] if len(times) > len(edits) else edits, times):
        print(f"edit {crate} {seconds:.1f} {name}")
print(f"gate all {used.ru_utime + used.ru_stime:.0f} {clock:.0f} {last}")
P
