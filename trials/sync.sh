#!/usr/bin/env bash
# Looks at the syncs of the built program, of which no contract speaks: no `committed` is written while a write to the
# file has no sync after it; a sync that fails is answered `refused 11 device` and all that follows `refused 12
# failed`, no call of the file follows it, and what was committed is found again. Takes the program's path, or proves
# and builds the one of this checkout. The last line counts.
set -euo pipefail
top="$(cd "$(dirname "${BASH_SOURCE[0]}")/.." && pwd)"
program="$top/crates/gx_front/out/gx_front"
if [ $# -eq 1 ]; then program="$(realpath "$1")"; else "$top/gist" plain < /dev/null; fi
work="$(mktemp -d)"
trap 'rm -rf "$work"' EXIT
"${CC:-cc}" -O2 -shared -fPIC -o "$work/refuse.so" "$top/trials/refuse_sync.c"
cd "$work"
passed=0
failed=0

# The last call that was made of the file.
last_call() { grep -Ex 'write|extend|sync|fault|refused' calls | tail -1; }

# NAME COMMAND..: whether this command succeeds.
holds() {
    local name="$1"
    shift
    if "$@"; then passed=$((passed + 1)); else failed=$((failed + 1)); echo "FAILED $name"; fi
}

# SETTING WORD..: runs the program with these arguments on a script, standard input, over the file `it`; `calls` gets the
# calls that it makes.
noting() {
    local setting="$1"
    shift
    : > calls
    status=0
    # shellcheck disable=SC2086
    env FILE=it CALLS=calls $setting LD_PRELOAD="$work/refuse.so" "$program" "$@" > out 2> err || status=$?
}

# Whether each `committed` of the calls came when all writes were synced, and some did.
is_settled() {
    awk '/^(write|extend)$/ { open = 1 }
        /^sync$/ { open = 0 }
        /^committed$/ { told = 1; if (open) bad = 1 }
        END { exit !told || bad }' calls
}

# Whether the calls after the sync that was refused are none of the file.
ends_refused() { awk 'gone && !/^reply$/ { bad = 1 } /^refused$/ { gone = 1 } END { exit !(gone && !bad) }' calls; }

# Whether the last run was answered as the ample one, whose replies are in `ample`, up to some call, that one by 11
# and the rest by 12; or by 11 alone as it opened; or amply, if what failed was the last sync of all.
is_told() {
    awk 'NR == FNR { ample[FNR] = $0; next }
        FNR == 1 && $0 == "refused 11 device" { early = 1; next }
        gone { if ($0 !~ /^[12] refused 12 failed$/) bad = 1; next }
        /^[12] refused 11 device$/ { gone = 1; next }
        $0 != ample[FNR] { bad = 1 }
        END { exit bad || early && FNR != 1 || !early && !gone && FNR != NR - FNR }' ample out
    [ "$status" = 1 ] && [ -s err ]
}

# Whether the file has all commits that were answered, and one more at most.
keeps_commits() {
    local told
    told="$(grep -c committed out || true)"
    "$program" verify it > verified && grep -qE "^ok commits ($told|$((told + 1))) " verified
}

# SESSION ROW: a line that inserts the row, somewhere.
insert() {
    local left=$(($2 * 7919 % 1000))
    echo "$1 INSERT $2 $left $2 $((left + 9)) $(($2 + 9))"
}

# Two sessions, of which one gives up; then commits that bring a checkpoint about, in nodes of 4 entries and 16 frames.
{
    printf '1 BEGIN\n2 BEGIN\n1 INSERT 7 0 0 10 10\n2 INSERT 8 500 500 510 510\n1 COMMIT\n2 ABORT\n'
    printf '1 BEGIN\n1 DELETE 7 0 0 10 10\n1 INSERT 9 5 5 6 6\n1 COMMIT\n2 BEGIN\n2 OVERLAP 0 0 20 20\n2 COMMIT\n'
} > short
for number in $(seq 100); do
    echo '1 BEGIN'
    for row in $(seq 5); do insert 1 $((10 * number + row)); done
    echo '1 COMMIT'
done > long

noting "" format it 512 4 < /dev/null
holds "a format syncs last" [ "$(last_call)" = sync ]
cp it fresh
noting "" run it < short
holds "each commit is synced" is_settled
holds "and all at the end" [ "$(last_call)" = sync ]
cp out ample
syncs="$(grep -c sync calls)"
noting "" run it --frames 16 < long
holds "each of many commits is" is_settled
holds "with two syncs each, and checkpoints" [ "$(grep -c sync calls)" -gt 202 ]
noting "" dump it < /dev/null
holds "what a dump writes is synced" [ "$(last_call)" = sync ]
noting "" verify it < /dev/null
holds "verifying makes no call" [ "$(sort -u calls)" = reply ]

for number in 1 2 3 4; do
    rm -f it
    noting "REFUSE=$number" format it 16 4 < /dev/null
    holds "a format whose sync $number fails" [ "$status $(cat out)" = "1 refused 11 device" ]
    holds "makes no call behind it" ends_refused
done
for number in $(seq "$syncs"); do
    cp fresh it
    noting "REFUSE=$number" run it < short
    holds "sync $number of $syncs that fails is reported" is_told
    holds "no call follows it, $number" ends_refused
    holds "what was committed stays, $number" keeps_commits
done

cp fresh it
noting "SWALLOW=1" run it < short
holds "a program without syncs is seen" eval '! is_settled'
echo "$passed passed, $failed failed"
[ "$failed" = 0 ]
