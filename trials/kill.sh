#!/usr/bin/env bash
# Kills programs at random moments (kill -9), and looks at what is in the file then (kill.py).
#
# `gist run` commits numbered entries of a script, one a transaction. After each kill the file has to hold exactly the entries of the first
# n commits, where n is the last commit that was answered, or the one after it.
#
# Eight threads of `gx_threads_example` commit over one file, and print each commit once it is acknowledged. After each kill the file has to
# be sound and to hold, of each thread, what its first n commits added, where n is how many were acknowledged, or one more. So has another
# file, which has only what was synced (keep_synced.c): what a stop of the machine leaves at least. A disk that lies is noticed.
#
# `gist migrate` brings an index of the format's first version into another file, over nothing or over another index. After each kill the
# first file has the same bytes, and the other is unchanged, is refused, or holds the whole index; so does what was synced of it.
# Before that each of its calls that changes the new file is killed in turn, and has an error in turn. Needs strace.
#
#   trials/kill.sh [KILLS [SEED [KILLS-OF-THREADS [KILLS-OF-MIGRATIONS]]]]
#
# PROGRAM and THREADS, if they are set, are the paths of the program and of gx_threads_example; else those of this checkout are proved and
# built. KILLS is 200, SEED 1, KILLS-OF-THREADS 40 and KILLS-OF-MIGRATIONS 100 if they aren't given. The last line counts the kills.
set -euo pipefail
top="$(cd "$(dirname "${BASH_SOURCE[0]}")/.." && pwd)"
if [ -n "${PROGRAM-}" ]; then
    program="$(realpath "$PROGRAM")"
else
    "$top/gist" plain < /dev/null
    program="$top/crates/gx_front/out/gx_front"
fi
if [ -n "${THREADS-}" ]; then
    threads="$(realpath "$THREADS")"
else
    (cd "$top/crates/gx_threads_example" && rt run < /dev/null)
    threads="$top/crates/gx_threads_example/out/gx_threads_example"
fi
work="$(mktemp -d)"
trap 'rm -rf "$work"' EXIT
"${CC:-cc}" -O2 -shared -fPIC -o "$work/keep_synced.so" "$top/trials/keep_synced.c" -lpthread
cd "$work"
python3 "$top/trials/kill.py" "$program" "$threads" "$work/keep_synced.so" "${1:-200}" "${2:-1}" "${3:-40}" "${4:-100}"
