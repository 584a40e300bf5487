"""What kill.sh kills, and what it looks at then: usage: kill.py PROGRAM THREADS SHIM KILLS SEED KILLS-OF-THREADS KILLS-OF-MIGRATIONS

In a separate folder, in which it makes its files."""
import base64
import collections
import lzma
import os
import pathlib
import random
import re
import subprocess
import sys
import threading
import time

PROGRAM, THREADS, SHIM = sys.argv[1:4]
# The index of the format's first version that is migrated.
VERSION1 = pathlib.Path(__file__).resolve().parent / "version1"
ALL = b"1 BEGIN\n1 OVERLAP -2147483648 -2147483648 2147483647 2147483647\n"
# Of one script, and of one file.
COMMITS, MOST_COMMITS = 120, 600
# How many threads there are, and how many commits each makes at most.
SESSIONS, EACH = 8, 200
# After so many kills over a disk that lies, one has to be noticed.
LIES = 10


class Wrong(Exception):
    """What a file holds isn't what was committed."""


def entries(file):
    """The entries that a file holds, as lists of numbers, after all that open transactions wrote is undone."""
    told = subprocess.run([PROGRAM, "run", file], input=ALL, capture_output=True)
    lines = told.stdout.decode().splitlines()
    if told.returncode != 0 or lines[:1] != ["1 ok"]:
        raise Wrong(f"the file can't be searched: {told}")
    if lines[1] != f"1 found {len(lines) - 2}":
        raise Wrong(f"another count: {lines[1]}")
    return [[int(word) for word in line.removeprefix("1 entry ").split()] for line in lines[2:]]


def killed(started, delay):
    """Ends a process after so many seconds. What it printed, and whether the kill met it."""
    said = []
    reader = threading.Thread(target=lambda: said.append(started.stdout.read()))
    reader.start()
    try:
        started.wait(timeout=delay)
    except subprocess.TimeoutExpired:
        started.kill()
    status = started.wait()
    reader.join()
    if status not in (-9, 0):
        raise Wrong(f"status {status}: {said}")
    return said[0], status == -9


def script(first, count):
    lines = []
    for row in range(first, first + count):
        lines += ["1 BEGIN", f"1 INSERT {row} {row} {-row} {row + 3} {5 - row}", "1 COMMIT"]
    return ("\n".join(lines) + "\n").encode()


def new_file():
    told = subprocess.run([PROGRAM, "format", "places", "512", "8"], capture_output=True)
    if told.returncode != 0:
        raise Wrong(f"no new file: {told}")


def run(first, delay):
    """Runs a script that commits entries from `first` on, and kills it. What it answered, and whether the kill met it."""
    with open("script", "wb") as it:
        it.write(script(first, COMMITS))
    with open("script", "rb") as lines:
        command = [PROGRAM, "run", "places"]
        return killed(subprocess.Popen(command, stdin=lines, stdout=subprocess.PIPE, stderr=subprocess.DEVNULL), delay)


def rows_of(file):
    """The rows of a file to which scripts alone added."""
    found = entries(file)
    for it in found:
        row = it[0]
        if it != [row, row, -row, row + 3, 5 - row]:
            raise Wrong(f"an entry that was never committed: {it}")
    return [it[0] for it in found]


def kill_scripts(kills, seed):
    at = random.Random(seed)
    # How long one whole script takes, so that moments are within it.
    began = time.time()
    new_file()
    subprocess.run([PROGRAM, "run", "places"], input=script(1, COMMITS), capture_output=True)
    whole = time.time() - began
    new_file()
    n, met, ahead, commits = 0, 0, 0, 0
    while met < kills:
        if n > MOST_COMMITS:
            new_file()
            n = 0
        answers, was_met = run(n + 1, at.uniform(0, 1.05 * whole))
        met += was_met
        # the last line may have been cut: a reply is whole once its line has ended
        numbers = [int(it) for it in re.findall(rb"^1 committed (\d+)\n", answers, re.M)]
        if numbers != list(range(n + 1, n + 1 + len(numbers))):
            raise Wrong(f"commits {numbers} after {n}")
        if b"refused" in answers:
            raise Wrong(f"a refusal: {answers}")
        last = n + len(numbers)
        rows = rows_of("places")
        if rows != list(range(1, len(rows) + 1)):
            raise Wrong(f"rows {rows} after commit {last}")
        if len(rows) not in (last, last + 1):
            raise Wrong(f"{len(rows)} entries after commit {last} was answered")
        ahead += len(rows) == last + 1
        commits += len(rows) - n
        n = len(rows)
    print(f"{commits} commits in {time.time() - began:.0f} s; {ahead} were there that hadn't been answered", flush=True)
    return met


def threads_killed(delay, **setting):
    """Has threads commit over a new file, and kills them so many seconds after the first commit. The numbers of the commits that were
    acknowledged, by session; whether the kill met them; and the seconds from the first commit on."""
    for file in ("shared", "kept"):
        if os.path.exists(file):
            os.remove(file)
    with open("line", "w", encoding="utf-8") as it:
        it.write(f"told {SESSIONS} {EACH} shared\n")
    setting = {**os.environ, "FILE": "shared", "KEPT": "kept", "LD_PRELOAD": SHIM, **setting}
    with open("line", "rb") as lines:
        started = subprocess.Popen([THREADS], stdin=lines, stdout=subprocess.PIPE, stderr=subprocess.STDOUT, env=setting)
    head = started.stdout.readline()
    began = time.time()
    said, was_met = killed(started, delay)
    acknowledged = collections.defaultdict(list)
    for session, number in re.findall(rb"^session (\d) committed (\d+)\n", head + said, re.M):
        acknowledged[int(session)].append(int(number))
    if not acknowledged or b"refused" in said:
        raise Wrong(f"no commits: {head + said}")
    return acknowledged, was_met, time.time() - began


def judge(file, acknowledged):
    """Whether a file is sound and has all that was acknowledged, and of each session one commit more at most. How many these are."""
    told = subprocess.run([PROGRAM, "verify", file], capture_output=True, text=True)
    said = re.match(r"ok commits (\d+) entries (\d+) ", told.stdout)
    if told.returncode != 0 or not said:
        raise Wrong(f"{file} isn't sound: {told}")
    commits, count = map(int, said.groups())
    places = collections.defaultdict(set)
    for row, *box in entries(file):
        if box != [box[0], 100 * row, box[0] + 1, 100 * row + 1]:
            raise Wrong(f"an entry that was never committed: {row} {box}")
        places[row].add(box[0])
    for session in range(1, SESSIONS + 1):
        numbers, there = acknowledged[session], places[session]
        if numbers != sorted(set(numbers)) or numbers and numbers[-1] > commits:
            raise Wrong(f"{file} has {commits} commits, and session {session} was acknowledged {numbers[-1]}")
        if there != {turn * 7919 % 8191 * 100 for turn in range(len(there))}:
            raise Wrong(f"{file} has other entries of session {session} than the first ones")
        if len(there) not in (len(numbers), len(numbers) + 1):
            raise Wrong(f"{file} has {len(there)} entries of session {session}, of whose commits {len(numbers)} were acknowledged")
    known = sum(map(len, acknowledged.values()))
    if not commits == count == sum(map(len, places.values())):
        raise Wrong(f"{file} has {commits} commits and {count} entries")
    return count - known


def kill_threads(kills, seed):
    at = random.Random(seed)
    began = time.time()
    met, ahead, commits = 0, 0, 0
    _, _, whole = threads_killed(None)
    while met < kills:
        acknowledged, was_met, _ = threads_killed(at.uniform(0, whole))
        met += was_met
        ahead += judge("shared", acknowledged)
        judge("kept", acknowledged)
        commits += sum(map(len, acknowledged.values()))
    print(f"{commits} commits of {SESSIONS} threads in {time.time() - began:.0f} s; {ahead} were there that hadn't been acknowledged", flush=True)
    for lie in range(1, LIES + 1):
        acknowledged, _, _ = threads_killed(at.uniform(0, whole), LATE="1")
        judge("shared", acknowledged)
        try:
            judge("kept", acknowledged)
        except Wrong as why:
            print(f"a disk that lies was noticed at kill {lie}: {why}", flush=True)
            return met
    raise Wrong(f"a disk that lies wasn't noticed in {LIES} kills")


def content(file):
    return pathlib.Path(file).read_bytes() if os.path.exists(file) else b""


def migration_killed(delay):
    """Migrates `old` to `new`, and kills that after so many seconds. What it printed, and whether the kill met it."""
    if os.path.exists("kept"):
        os.remove("kept")
    setting = {**os.environ, "FILE": "new", "KEPT": "kept", "LD_PRELOAD": SHIM}
    command = [PROGRAM, "migrate", "old", "new"]
    return killed(subprocess.Popen(command, stdout=subprocess.PIPE, stderr=subprocess.DEVNULL, env=setting), delay)


def is_migrated(file, tree):
    """Whether a file holds the migrated index, whose dump this is; else it holds none."""
    told = subprocess.run([PROGRAM, "verify", file], capture_output=True, text=True)
    if told.returncode == 0:
        if subprocess.run([PROGRAM, "dump", file], capture_output=True).stdout != tree:
            raise Wrong(f"{file} holds another index than the one that was migrated: {told}")
        return True
    if told.stdout not in ("refused 14 not formatted\n", "refused 17 too small\n"):
        raise Wrong(f"{file} is neither refused nor whole: {told}")
    return False


def unpacked(kind):
    """Unpacks an index of version 1 as the file `old`. Its bytes, and what a program of that version prints of it."""
    old = lzma.decompress(base64.decodebytes((VERSION1 / f"{kind}.xz.base64").read_bytes()))
    pathlib.Path("old").write_bytes(old)
    return old, (VERSION1 / f"{kind}.dump").read_bytes()


def put_new(before):
    """Has the file `new` hold these bytes; without any there is no such file."""
    path = pathlib.Path("new")
    if before:
        path.write_bytes(before)
    else:
        path.unlink(missing_ok=True)


def migration_stopped(call, number, how):
    """Migrates `old` to `new` with this one of its calls of a kind killed or failed. Its status."""
    command = ["strace", "-o", "/dev/null", "-e", f"trace={call}", "-e", f"inject={call}:{how}:when={number}", PROGRAM, "migrate", "old", "new"]
    return subprocess.run(command, capture_output=True).returncode


def stop_migrations():
    """Kills or fails each call of a migration that changes the new file, over no file and over another index."""
    new_file()
    other = content("places")
    stops, done = 0, 0
    for kind, before in (("open", b""), ("open", other), ("fresh", b"")):
        old, tree = unpacked(kind)
        for call in ("ftruncate", "pwrite64", "fdatasync"):
            for how, status in (("signal=KILL", -9), ("error=EIO", 1)):
                number, ended = 0, status
                while ended == status:
                    number += 1
                    put_new(before)
                    ended = migration_stopped(call, number, how)
                    if content("old") != old:
                        raise Wrong("the old file was changed")
                    done += content("new") != before and is_migrated("new", tree)
                stops += number - 1
                if ended != 0 or not is_migrated("new", tree):
                    raise Wrong(f"status {ended} of a migration whose {call} {number} was to stop by {how}")
    print(f"{stops} calls of migrations were stopped, each in turn; {done} were whole", flush=True)
    return stops


def kill_migrations(kills, seed):
    at = random.Random(seed)
    began = time.time()
    old, tree = unpacked("both")
    migration_killed(None)
    whole = time.time() - began
    new_file()
    other = content("places")
    met, done = 0, 0
    while met < kills:
        # over no file, or over one that holds another index
        before = other if at.random() < 0.5 else b""
        put_new(before)
        said, was_met = migration_killed(at.uniform(0, 1.05 * whole))
        met += was_met
        if content("old") != old:
            raise Wrong("the old file was changed")
        for file in filter(os.path.exists, ("new", "kept")):
            if content(file) != before and is_migrated(file, tree):
                done += file == "new"
            elif said and file == "new":
                raise Wrong(f"it was told as migrated and isn't: {said}")
    print(f"{met} migrations were killed in {time.time() - began:.0f} s; {done} were whole", flush=True)
    return met


def main():
    kills, seed, of_threads, of_migrations = map(int, sys.argv[4:])
    try:
        met = kill_scripts(kills, seed) + kill_threads(of_threads, seed) + stop_migrations() + kill_migrations(of_migrations, seed)
    except Wrong as why:
        print(f"FAILED {why}")
        sys.exit(1)
    print(f"{met} kills, every acknowledged commit was there")


main()
