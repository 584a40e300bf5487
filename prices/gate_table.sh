#!/usr/bin/env bash
# Makes a table of a log of `gate_times.sh`, beside that of an earlier revision if a second log is given: for each crate
# the processor seconds of its proof, its tests, its stored runs, its edits and its planted bugs; then the slowest edits of all.
set -euo pipefail
log="${1:?the log}"
before="${2:-/dev/null}"
echo "| Crate | Proof | Tests | Runs | Edits | How many | Planted | All |${2:+ Before |}"
echo "|---|---|---|---|---|---|---|---|${2:+---|}"
awk '
    $1 == "gate" { next }
    FILENAME == ARGV[1] { before[$2] += $3; was += $3 }
    FILENAME == ARGV[2] { of[$1, $2] += $3; all[$2] += $3; sum[$1] += $3; whole += $3 }
    FILENAME == ARGV[2] && $1 == "edit" && $4 != "(none)" { many[$2]++; edits++ }
    !($2 in seen) { seen[$2] = 1; order[++crates] = $2 }
    function cell(x) { return x ? sprintf("%.0f", x) : "" }
    function row(name, proof, tests, runs, edit, many, planted, all, was) {
        printf "| %s | %s | %s | %s | %s | %s |", name, cell(proof), cell(tests), cell(runs), cell(edit), many
        printf " %s | %s |", cell(planted), cell(all)
        print ARGV[1] == "/dev/null" ? "" : " " cell(was) " |"
    }
    END {
        for (i = 1; i <= crates; i++) {
            c = order[i]
            row("`" c "`", of["proof", c], of["tests", c], of["runs", c], of["edit", c], many[c], of["planted", c], all[c], before[c])
        }
        row("all", sum["proof"], sum["tests"], sum["runs"], sum["edit"], edits, sum["planted"], whole, was)
    }' "$before" "$log" | LC_ALL=C sort
echo
echo 'The slowest edits, in processor seconds:'
awk '$1 == "edit" { print $3, $2, $4 }' "$log" | sort -rn | head -10 | awk '{ printf "- `%s`, `%s`: %s\n", $2, $3, $1 }'
