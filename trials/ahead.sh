#!/usr/bin/env bash
# Looks at the early syncs of threads over one file, of which no contract speaks: most syncs are early, and the device
# makes none of these again; and if an early one fails once, and the next would succeed, every waiting commit is
# answered `device` or `failed`, no sync is begun any more, and the file opens with all commits that were acknowledged.
# Takes the paths of `gx_threads_example` and of the program, or proves and builds those of this checkout. The last line
# counts.
set -euo pipefail
top="$(cd "$(dirname "${BASH_SOURCE[0]}")/.." && pwd)"
threads="$top/crates/gx_threads_example/out/gx_threads_example"
program="$top/crates/gx_front/out/gx_front"
if [ $# -eq 2 ]; then
    threads="$(realpath "$1")"
    program="$(realpath "$2")"
else
    (cd "$top/crates/gx_threads_example" && rt run < /dev/null)
    "$top/gist" plain < /dev/null
fi
work="$(mktemp -d)"
trap 'rm -rf "$work"' EXIT
"${CC:-cc}" -O2 -shared -fPIC -o "$work/refuse.so" "$top/trials/refuse_sync.c"
cd "$work"
passed=0
failed=0

# NAME COMMAND..: whether this command succeeds.
holds() {
    local name="$1"
    shift
    if "$@"; then passed=$((passed + 1)); else failed=$((failed + 1)); echo "FAILED $name"; fi
}

# SETTING: four threads make 40 commits each over the file `it`, which is made anew; `calls` gets the calls.
commits() {
    rm -f it
    : > calls
    status=0
    # shellcheck disable=SC2086
    env FILE=it CALLS=calls $1 LD_PRELOAD="$work/refuse.so" "$threads" <<< "single 4 40 it" > out 2> err || status=$?
}

# How many commits were acknowledged.
acknowledged() { sed -nE 's/^[0-9]+ calls finished in all, ([0-9]+) commits$/\1/p' out; }

# Whether the program ended by a fault, which a session met as `device`, and every other as `failed`, if it did.
is_refused() {
    [ "$status" = 1 ] && [ "$(grep -c ' was refused: device$' out)" = 1 ] &&
        ! grep ' was refused: ' out | grep -qvE ': (device|failed)$' &&
        [ "$(grep -c 'the record agrees: true$' out)" = 4 ] && [ "$(acknowledged)" -lt 160 ]
}

# Whether no sync was made after the one that was refused, but for one that another thread had begun.
ends_refused() { awk 'gone && /^(early|sync|fault)$/ { more++ } /^refused$/ { gone = 1 } END { exit !gone || more > 1 }' calls; }

# Whether the file has all commits that were acknowledged, and one more of each session at most.
keeps_commits() {
    local known
    "$program" verify it > verified &&
        known="$(sed -nE 's/^ok commits ([0-9]+) .*/\1/p' verified)" &&
        [ "$known" -ge "$(acknowledged)" ] && [ "$known" -le $(($(acknowledged) + 4)) ]
}

# (which sync comes first is up to the system: three runs have a chance)
for _ in 1 2 3; do
    commits ""
    early="$(grep -c '^early$' calls || true)"
    [ "$early" -le "$(grep -c '^sync$' calls)" ] || break
done
holds "all is committed" [ "$status $(acknowledged)" = "0 160" ]
holds "the device makes no sync that was made early" [ "$early" -gt "$(grep -c '^sync$' calls)" ]
# (how many there are differs from run to run, so only the first ones are refused)
for number in $(seq $((early / 4 < 8 ? early / 4 : 8))); do
    commits "EARLY=1 REFUSE=$number"
    holds "early sync $number that fails is told" is_refused
    holds "no sync follows it, $number" ends_refused
    holds "what was acknowledged stays, $number" keeps_commits
done
echo "$passed passed, $failed failed"
[ "$failed" = 0 ]
