#!/usr/bin/env bash
# How fast the machine was in one run of `gate_times.sh` beside another: prints what the proof of each crate took that has the same
# sources, contracts and proofs in both, and what all of these took together. By that factor the whole of one run can be stated at the
# speed of the other. The arguments: the log, the other log, the other's revision, and the log's own revision, HEAD if none is named.
set -euo pipefail
log="$(realpath "${1:?the log}")"
other="$(realpath "${2:?the other log}")"
before="${3:?the revision of the other log}"
now="${4:-HEAD}"
cd "$(dirname "${BASH_SOURCE[0]}")/.."
# the trees of a crate that its proof depends on: not its edits, nor what a program is run on
trees() {
    for part in src specs proofs; do git rev-parse -q --verify "$1:crates/$2/$part" || true; done
}
echo '| Crate | Proof in the other log | Proof in the log | |'
echo '|---|---|---|---|'
awk '$1 == "proof" { print $2, $3 }' "$log" | sort | while read -r crate seconds; do
    was="$(awk -v crate="$crate" '$1 == "proof" && $2 == crate { print int($3); exit }' "$other")"
    if [ -n "$was" ] && [ "$(trees "$before" "$crate")" = "$(trees "$now" "$crate")" ]; then
        echo "$crate $was $seconds"
    fi
done | awk '
    { printf "| `%s` | %d | %.0f | %.2f |\n", $1, $2, $3, $3 / $2; was += $2; is += $3 }
    END { if (was) printf "| all of these | %d | %.0f | %.2f |\n", was, is, is / was }'
