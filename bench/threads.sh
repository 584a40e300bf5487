#!/usr/bin/env bash
# Times sessions in threads over one index: for 1, 2, 4 and 8 threads as many transactions in all, of six calls each
# (begin, three inserts, a search, a commit). First on a device in memory, then, a tenth as many, over a file; each time
# an index is made, opened, shared, settled and opened again. Prints the calls a second, from the best of nine runs less
# that of nine with no transaction, all in turn; and, if perf is installed, what share of the time the lock is held.
#
# Then commits of one insert each in separate strips, over the file, and of a search and an insert: how many a
# second, with the syncs and bytes of each, beside SQLite's R*Tree (write-ahead log, full sync) and PostgreSQL's GiST with
# a connection a thread; medians of ROUNDS (5), all in turn. A peer that isn't installed is left out; Debian's packages
# are libsqlite3-dev, and postgresql with libpq-dev.
#
# Then, beside the same: one thread's commits alone, and beside a thread that commits one a millisecond, with how much the
# first loses by it; and reads by one and three threads beside one that commits without pause, with how much that one
# loses: how many of both a second, and from how many microseconds on the slowest hundredth of the reads is.
#
#   bench/threads.sh [TRANSACTIONS [FOLDER [PROGRAM]]]
#
# TRANSACTIONS is how many there are in memory, up to 5,000: a record has room for no more. FOLDER is on the file system
# to be measured, and without PROGRAM the one of this checkout is proved and built. ONLY=commits leaves out the first
# part. With SLOW=1 each sync of a file takes a millisecond more, SQLite's and PostgreSQL's too.
set -euo pipefail
top="$(cd "$(dirname "${BASH_SOURCE[0]}")/.." && pwd)"
work="$(mktemp -d ${2:+-p "$2"})"
server=
# Ends what the script started, and removes what it made.
clear_up() {
    [ -z "$server" ] || kill -INT "$server" 2> /dev/null || true
    [ -z "$server" ] || wait "$server" || true
    rm -rf "$work"
}
trap clear_up EXIT
chmod 755 "$work"
if [ $# -ge 3 ]; then
    program="$(realpath "$3")"
else
    cd "$top/crates/gx_threads_example"
    rt run < stdin > "$work/log" 2>&1 || { cat "$work/log"; exit 1; }
    program="$PWD/out/gx_threads_example"
fi
cd "$top/bench/commits"
flags=(-O2 -std=gnu11 -Wall -Wextra -pthread)
cc "${flags[@]}" -shared -fPIC -o "$work/count.so" count.c
slow=
if [ "${SLOW:-0}" = 1 ]; then
    cc "${flags[@]}" -shared -fPIC -o "$work/slow_sync.so" "$top/bench/peers/slow_sync.c"
    slow="$work/slow_sync.so"
fi
cc "${flags[@]}" -o "$work/sqlite" commits.c sqlite.c -lsqlite3 2> "$work/log" ||
    echo "left out: SQLite, for want of libsqlite3-dev" >&2
binaries="$(pg_config --bindir 2> /dev/null || true)"
flags+=("-I$(pg_config --includedir 2> /dev/null || true)")
if [ -x "$binaries/initdb" ] && cc "${flags[@]}" -o "$work/postgres" commits.c postgres.c -lpq 2> "$work/log"; then
    source "$top/bench/peers/server.sh"
    start_postgres "$work" "$binaries" "$slow"
else
    echo "left out: PostgreSQL, for want of postgresql and libpq-dev" >&2
fi
export SERVER="$work/server" SLOW_SYNC="$slow"
cd "$work"
echo "load $(cut -d' ' -f1 /proc/loadavg), the file is on $(df -T . | tail -1 | awk '{ print $2 }')"
python3 - "$program" "${1:-4000}" <<'P'
import os, re, statistics, subprocess, sys, time

program, total = sys.argv[1], int(sys.argv[2])
file, samples, summary = "shared.gist", "samples", "summary"
rate = 5000
rounds = int(os.environ.get("ROUNDS", 5))
slow = os.environ["SLOW_SYNC"]
# What counts comes before what slows, which makes the system's call itself.
counting = {**os.environ, "LD_PRELOAD": " ".join([os.path.abspath("count.so"), slow]).strip()}
slowed = {**os.environ, "LD_PRELOAD": slow}

def run(threads, transactions, file, before=[]):
    """The seconds that so many transactions take, which the record has to have."""
    each = transactions // threads
    line = f"{threads} {each} {file}".strip()
    began = time.perf_counter()
    done = subprocess.run(before + [program], input=line + "\n", text=True, check=True, stdout=subprocess.PIPE, stderr=subprocess.DEVNULL, env=slowed)
    took = time.perf_counter() - began
    said = done.stdout.splitlines()
    agree = all(words.endswith(f": {6 * each} calls finished, the record agrees: true") for words in said[:-2])
    last = [f"{6 * each * threads} calls finished in all, {each * threads} commits", f"opened again: {3 * each * threads} entries"]
    if not agree or said[-2:] != last:
        sys.exit("\n".join(said))
    return took

def sampled(threads, transactions):
    """What share of the calls' time in memory the lock is held, by samples of processor time. Held is what an engine's events take, and
    the recording of replies; not so Worker::call, which takes the lock and lets it go, and waiting for it."""
    run(threads, transactions, "", ["perf", "record", "-q", "-e", "cpu-clock", "-F", str(rate), "-g", "-o", samples])
    script = ["perf", "script", "-i", samples, "-F", "time,ip,sym"]
    told = subprocess.run(script, text=True, check=True, stdout=subprocess.PIPE, stderr=subprocess.DEVNULL).stdout
    taken = []
    for sample in told.split("\n\n"):
        head, *chain = [line.strip() for line in sample.splitlines() if line.strip()] or [""]
        frames = [line.partition(" ") for line in chain]
        waits = any("futex" in symbol for _, _, symbol in frames)
        user = next((symbol for place, _, symbol in frames if int(place, 16) < 1 << 63), None)
        if user:
            taken.append((float(head.rstrip(":")), user, waits or user == "syscall" or "::Worker::call" in user))
    calls = [at for at, user, _ in taken if "::Worker::call" in user or "EngineEvents" in user]
    held = sum(not outside for at, _, outside in taken if calls[0] <= at <= calls[-1])
    return held / rate / (calls[-1] - calls[0])

def traced(threads, transactions):
    """Seconds of a run over the file, those in its writes and syncs, and how many syncs there were."""
    took = run(threads, transactions, file, ["perf", "trace", "-s", "-o", summary])
    calls = re.findall(r"^ *(pwrite64|fdatasync|fsync) +(\d+) +\d+ +([\d.]+)", open(summary).read(), re.M)
    syncs = sum(int(count) for name, count, _ in calls if name != "pwrite64")
    return took, sum(float(spent) for *_, spent in calls) / 1000, syncs

def bare():
    """What 300 writes of 4,096 bytes take in this folder, each with its sync, in microseconds: the least and the median."""
    times = []
    with open(file, "r+b", buffering=0) as opened:
        for place in range(300):
            began = time.perf_counter()
            os.pwrite(opened.fileno(), b"x" * 4096, 4096 * place)
            os.fdatasync(opened.fileno())
            times.append(time.perf_counter() - began)
    return 1e6 * min(times), 1e6 * statistics.median(times)

def table(name, transactions, file):
    counts = [1, 2, 4, 8]
    best = {work: 1e9 for work in [(1, 0)] + [(threads, transactions) for threads in counts]}
    for _ in range(9):
        for work in best:
            best[work] = min(best[work], run(*work, file))
    for threads in counts:
        calls = 6 * (transactions // threads) * threads
        took = best[threads, transactions] - best[1, 0]
        print(f"{name}, threads {threads}: {calls} calls in {1000 * took:.0f} ms, {calls / took:.0f} calls a second", flush=True)

def shares(transactions):
    began = traced(1, 0)
    for threads in [1, 2, 4, 8]:
        print(f"memory, threads {threads}: held for {sampled(threads, 4 * transactions):.0%} of the time", flush=True)
    for threads in [1, 2, 4, 8]:
        took, inside, syncs = traced(threads, transactions)
        print(f"file, threads {threads}: in writes and syncs for {(inside - began[1]) / (took - began[0]):.0%} of the time, "
              f"{(syncs - began[2]) / (transactions // threads * threads):.1f} syncs a transaction", flush=True)

def ours(kind, threads, each):
    """Seconds of a run over the file in which each thread commits so many transactions, and the syncs and bytes that it made."""
    began = time.perf_counter()
    done = told_by("gist", kind, threads, each, counting)
    return time.perf_counter() - began, *map(int, done.stderr.split()[-2:])

def told_by(name, kind, threads, each, env):
    """A run by a program that makes its index anew."""
    words, where = f"{kind} {threads} {each}", {"sqlite": "other.db", "postgres": os.environ["SERVER"]}.get(name, file)
    command = [program] if name == "gist" else [f"./{name}", *words.split(), where]
    return subprocess.run(command, input=f"{words} {where}\n", text=True, check=True, capture_output=True, env=env)

def peer(name, kind, threads, each):
    """The same as `ours` by another index: its seconds are those of its threads alone."""
    done = told_by(name, kind, threads, each, counting)
    return float(done.stdout), *map(int, done.stderr.split()[-2:])

def commits(transactions):
    """Commits of one insert each in strips of their own, and of a search and an insert, by all indexes in turn."""
    for kind in ("single", "pair"):
        work = [(threads, name) for threads in (1, 2, 4, 8) for name in indexes]
        told = {it: [] for it in work}
        for _ in range(rounds):
            for threads, name in work:
                each = transactions // threads
                if name == "gist":
                    none, some = ours(kind, threads, 0), ours(kind, threads, each)
                    told[threads, name].append([after - before for before, after in zip(none, some)])
                else:
                    told[threads, name].append(peer(name, kind, threads, each))
        for threads, name in work:
            count = transactions // threads * threads
            middle = [statistics.median(it) for it in zip(*told[threads, name])]
            best = min(it[0] for it in told[threads, name])
            ratio = statistics.median(one[0] / our[0] for one, our in zip(told[threads, name], told[threads, "gist"]))
            told_of = f"{count / middle[0]:.0f} commits a second (at best {count / best:.0f})"
            if name != "postgres":
                told_of += f", {middle[1] / count:.2f} syncs and {middle[2] / count / 1000:.1f} KB a commit"
            if name != "gist":
                told_of += f", gist {ratio:.2f} times as many"
            print(f"{kind}, threads {threads}, {name}: {told_of}", flush=True)

def beside(name, kind, threads, each):
    """What the first thread, the others and the readers do a second, and the microseconds from which on the slowest hundredth of the reads are."""
    # (SQLite's reads are over too soon to be counted beside commits)
    each *= 20 if kind == "reads" and name == "sqlite" else 1
    done = told_by(name, kind, threads, each, slowed)
    commits, others, reads, micros, slowest = map(int, re.findall(r"\d+", done.stdout)[:5])
    if name == "gist" and 7 * (commits + others) + 2 * reads > 65500:
        sys.exit(f"the record is full: {done.stdout}")
    return [1e6 * it / micros for it in (commits, others, reads)] + [slowest / 1000]

def mixed():
    """Commits alone and beside a thread that pauses for a millisecond behind each of its own, and reads beside commits without pause,
    by all indexes in turn."""
    each = 400 if slow else 4000
    work = [("paced", 1, each), ("paced", 2, each), ("reads", 2, 20000), ("reads", 4, 7000)]
    told = {(it, name): [] for it in work for name in indexes}
    for _ in range(rounds):
        for it, name in told:
            told[it, name].append(beside(name, *it))
    for (kind, threads, each), name in told:
        commits, others, reads, slowest = map(statistics.median, zip(*told[(kind, threads, each), name]))
        lost = 1 - commits / statistics.median(it[0] for it in told[work[0], name])
        told_of = f"{name}: {commits:.0f} commits a second" + (f", {lost:.0%} fewer than alone" if threads > 1 else "")
        if kind == "paced":
            print(f"one commits, {threads - 1} beside at a pause, {told_of}, {others:.0f} beside", flush=True)
        else:
            print(f"one commits, {threads - 1} read, {told_of}; {reads:.0f} reads a second, the slowest hundredth from "
                  f"{slowest:.0f} microseconds on", flush=True)

indexes = ["gist"] + [name for name in ("sqlite", "postgres") if os.path.exists(name)]
alone = os.environ.get("ONLY") == "commits"
if not alone:
    table("memory", total, "")
    table("file", total // 10, file)
commits(total // 2)
mixed()
print("a write of 4,096 bytes there with its sync: at least {:.0f} microseconds, in the middle {:.0f}".format(*bare()), flush=True)
try:
    if not alone:
        shares(total // 4)
except (FileNotFoundError, subprocess.CalledProcessError):
    print("perf isn't there, or may not be used: the share of time for which the lock is held isn't measured")
P
