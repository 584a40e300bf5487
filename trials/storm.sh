#!/usr/bin/env bash
# Runs storms, each of which the plain index has to replay. Over memory by 200 seeds, `gist storm SEED SESSIONS CALLS`, of 1 to 8 sessions in
# turn and 50 to 2,000 calls each, and each tenth as many calls as there can be; and over a file by 20 seeds, by `gx_threads_example`, of 1 to
# 8 sessions and 50 to 500 calls, with early syncs: what is left is opened again, and verified. Prints those that aren't sound, and at the
# end how many there were of each kind.
#
#   trials/storm.sh [PROGRAM THREADS [SEEDS [SEEDS-OVER-A-FILE]]]
#
# PROGRAM and THREADS are the paths of the program and of gx_threads_example; without them those of this checkout are proved and built.
set -euo pipefail
top="$(cd "$(dirname "${BASH_SOURCE[0]}")/.." && pwd)"
program="$top/crates/gx_front/out/gx_front"
threads="$top/crates/gx_threads_example/out/gx_threads_example"
if [ $# -ge 2 ]; then
    program="$(realpath "$1")"
    threads="$(realpath "$2")"
else
    "$top/gist" plain < /dev/null
    (cd "$top/crates/gx_threads_example" && rt run < /dev/null)
fi
work="$(mktemp -d)"
trap 'rm -rf "$work"' EXIT
sound=0
calls=0
failed=0

# SEED: how many sessions and calls the storm of a seed has.
draw() {
    sessions=$((1 + $1 % 8))
    each=$((50 + $1 * 37 % 451))
}

# WORDS WANTED COMMAND..: whether a storm is sound: this command succeeds and prints what is wanted.
judge() {
    local words="$1" wanted="$2" told status=0
    shift 2
    told="$("$@" 2>&1)" || status=$?
    if [ "$status" = 0 ] && [ "$told" = "$wanted" ]; then
        sound=$((sound + 1))
        calls=$((calls + sessions * each))
    else
        failed=$((failed + 1))
        echo "FAILED storm $words: status $status: $told"
    fi
}

# A storm over a file; then whether the file is sound.
over_file() {
    rm -f "$work/it"
    "$threads" <<< "storm $seed $sessions $each $work/it" && "$program" verify "$work/it" > "$work/verified" || return 1
    grep -q '^ok ' "$work/verified" || cat "$work/verified"
}

for ((seed = 1; seed <= ${3:-200}; seed++)); do
    draw "$seed"
    if ((seed % 10 == 0)); then
        sessions=8
        each=2000
    fi
    judge "$seed $sessions $each" "storm ok calls $((sessions * each))" "$program" storm "$seed" "$sessions" "$each"
done
for ((seed = 1; seed <= ${4:-20}; seed++)); do
    draw "$seed"
    judge "$seed $sessions $each over a file" "the plain index replays the storm" over_file
done
echo "$sound storms of $calls calls are sound, $failed are not"
[ "$failed" = 0 ]
