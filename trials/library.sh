#!/usr/bin/env bash
# Looks at the library in process, of whose C nothing is proved: its tests; threads that commit while images are made of
# what a stop of the machine would leave, in which nothing that was acknowledged may be lost; that a disk which lies is
# noticed; writes and syncs that fail; kills; and, unless `quick` is the first argument, all that for longer, the tests
# under the compiler's sanitizers and valgrind, and those in Python. Takes the path of libgx_c.a, or proves and builds that
# of this checkout. Where GIST names the program, it has to count the same in some of the images; the tests in Python need
# it. The last line counts.
set -euo pipefail
top="$(cd "$(dirname "${BASH_SOURCE[0]}")/.." && pwd)"
is_quick=
[ "${1-}" != quick ] || { is_quick=1; shift; }
[ -z "${GIST-}" ] || { GIST="$(realpath "$GIST")"; export GIST; }
work="$(mktemp -d)"
trap 'rm -rf "$work"' EXIT
mkdir "$work/trials"
cp -r "$top/c" "$work"
cp -r "$top/trials/library" "$work/trials"
rm -rf "$work/c/out" "$work/trials/library/out"
if [ $# -gt 0 ]; then
    proved="$(realpath "$1")"
else
    python3 "$top/tools/prove.py" --library gx_c
    proved="$top/crates/gx_c/out/libgx_c.a"
fi
export TMPDIR="$work" PYTHONDONTWRITEBYTECODE=1
built="$work/trials/library/out"
passed=0
failed=0

# NAME COMMAND..: adds what a command's last line counts; one without such a line failed.
count() {
    local name="$1" told
    shift
    echo "== $name"
    "$@" > "$work/log" 2>&1 || true
    tail -20 "$work/log"
    told="$(sed -nE 's/^([0-9]+) passed, ([0-9]+) failed$/\1 \2/p' "$work/log" | tail -1)"
    told="${told:-0 1}"
    passed=$((passed + ${told% *}))
    failed=$((failed + ${told#* }))
}

# IMAGES: whether a disk that lies loses what was acknowledged, and that is seen.
notices() {
    "$built/crashes" 8 60 "$1" late > "$work/late" || true
    if grep -qE '^[0-9]+ passed, [1-9][0-9]* failed$' "$work/late"; then
        echo "1 passed, 0 failed"
    else
        echo "0 passed, 1 failed"
    fi
}

# Runs the tests in Python that stop no program over the library.
in_python() {
    GIST_TESTED_LIBRARY="$work/c/out/libgist.so" python3 - "$top/python" << 'P'
import sys
import unittest

sys.path.insert(0, sys.argv[1])
names = [f"tests.test_{it}" for it in ("library", "calls", "space", "load", "answers", "tools")]
told = unittest.TextTestRunner(stream=sys.stdout).run(unittest.defaultTestLoader.loadTestsFromNames(names))
failed = sum(map(len, (told.failures, told.errors, told.skipped, told.unexpectedSuccesses)))
print(f"{told.testsRun - failed} passed, {failed} failed")
P
}

make -s -C "$work/c" PROVED="$proved" embedded out/embedded_test trials
cd "$work"
count "tests" c/out/embedded_test
count "syncs one by one" "$built/syncs"
count "images of eight threads" "$built/crashes" 8 60 $((is_quick ? 60 : 400))
count "images of eight threads whose writes are short or interrupted" "$built/crashes" 8 60 $((is_quick ? 30 : 200)) odd
count "images of one thread" "$built/crashes" 1 300 $((is_quick ? 30 : 100))
count "a disk that lies" notices $((is_quick ? 40 : 100))
count "calls that fail" "$built/faults" 1 $((is_quick ? 20 : 60))
count "kills" "$built/faults" kills $((is_quick ? 10 : 60))
if [ ! "$is_quick" ]; then
    make -s -C "$work/c" PROVED="$proved" out/embedded_test_sanitized out/embedded_test_threads
    count "tests under the sanitizers of addresses and of what isn't defined" c/out/embedded_test_sanitized
    count "tests under the sanitizer of threads" c/out/embedded_test_threads shared threads interrupted
    UNDER_VALGRIND=1 count "tests under valgrind" make -s -C "$work/c" PROVED="$proved" embedded-valgrind
    [ -z "${GIST-}" ] || count "tests in Python" in_python
fi
echo "$passed passed, $failed failed"
[ "$failed" = 0 ]
