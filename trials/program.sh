#!/usr/bin/env bash
# Tries the built program on arguments, streams and statuses that no contract covers: what it prints where, and how it
# ends. Takes the program's path, or proves and builds the one of this checkout. The last line counts the cases.
set -euo pipefail
top="$(cd "$(dirname "${BASH_SOURCE[0]}")/.." && pwd)"
if [ $# -eq 1 ]; then
    program="$(realpath "$1")"
else
    "$top/gist" plain < /dev/null
    program="$top/crates/gx_front/out/gx_front"
fi
work="$(mktemp -d)"
trap 'rm -rf "$work"' EXIT
printf '1 BEGIN\n1 INSERT 7 0 0 10 10\n' > "$work/script"
printf '1 ok\n1 inserted\n' > "$work/replies"
: > "$work/nothing"
passed=0
failed=0

# NAME STATUS OUTPUT FAULTS: the last run's status, its whole output (a file), and a pattern of what it wrote on standard
# error, where an empty one means nothing.
ended() {
    local name="$1" wanted="$2" output="$3" pattern="$4" why=""
    [ "$status" = "$wanted" ] || why="status $status, not $wanted"
    cmp -s "$work/out" "$output" || why="$why; other output"
    if [ -z "$pattern" ]; then
        [ ! -s "$work/err" ] || why="$why; standard error: $(cat "$work/err")"
    else
        grep -q -e "$pattern" "$work/err" || why="$why; standard error doesn't have '$pattern'"
    fi
    if [ -z "$why" ]; then passed=$((passed + 1)); else failed=$((failed + 1)); echo "FAILED $name: $why"; fi
}

# NAME STATUS OUTPUT FAULTS WORD..: a run on the script with these arguments.
case_of() {
    local name="$1" wanted="$2" output="$3" pattern="$4"
    shift 4
    status=0
    "$program" "$@" < "$work/script" > "$work/out" 2> "$work/err" || status=$?
    ended "$name" "$wanted" "$output" "$pattern"
}

case_of "a script" 0 "$work/replies" "" plain
case_of "no arguments" 2 "$work/nothing" "Usage: gist"
case_of "a wrong command" 2 "$work/nothing" "unrecognized subcommand 'plane'" plane
case_of "a word too many" 2 "$work/nothing" "unexpected argument 'x'" plain x
case_of "help" 2 "$work/nothing" "A spatial index" --help
case_of "a word that isn't text" 2 "$work/nothing" "word 1 isn't UTF-8" $'\xff'
case_of "the second such word" 2 "$work/nothing" "word 2 isn't UTF-8" plain $'\xff'
case_of "a word of 5,000 bytes" 2 "$work/nothing" "unrecognized subcommand" "$(printf '%5000s' x)"

cp "$program" "$work/another name"
status=0
"$work/another name" plane < /dev/null > "$work/out" 2> "$work/err" || status=$?
ended "another file name" 2 "$work/nothing" "Usage: gist"

status=0
"$program" plain < "$work" > "$work/out" 2> "$work/err" || status=$?
ended "a folder as input" 1 "$work/nothing" "^gist: the script can't be read: is a directory$"

status=0
"$program" plain <&- > "$work/out" 2> "$work/err" || status=$?
ended "a closed input" 1 "$work/nothing" "^gist: the script can't be read"

: > "$work/out"
status=0
"$program" plain < "$work/script" > /dev/full 2> "$work/err" || status=$?
ended "a full disk" 1 "$work/nothing" "^gist: a reply can't be written: no space left on device$"

status=0
"$program" plain < "$work/script" >&- 2> "$work/err" || status=$?
ended "a closed output" 1 "$work/nothing" "^gist: a reply can't be written"

status=0
{ yes '1 BEGIN' || true; } | head -200000 | { "$program" plain 2> "$work/err" || echo "$?" > "$work/left"; } | head -1 > "$work/out" || true
status="$(cat "$work/left" 2> /dev/null || echo 0)"
printf '1 ok\n' > "$work/first"
ended "a reader that leaves" 1 "$work/first" ""


# NAME STATUS OUTPUT FAULTS WORD..: a run with these arguments on the lines in $lines; OUTPUT is the text itself.
lines=""
on_file() {
    local name="$1" wanted="$2" pattern="$4"
    printf '%s' "$3" > "$work/wanted"
    shift 4
    status=0
    printf '%s' "$lines" | "$program" "$@" > "$work/out" 2> "$work/err" || status=$?
    ended "$name" "$wanted" "$work/wanted" "$pattern"
}

# NAME COMMAND..: whether this command succeeds.
holds() {
    local name="$1"
    shift
    if "$@"; then passed=$((passed + 1)); else failed=$((failed + 1)); echo "FAILED $name"; fi
}

nothing=""
none='refused 11 device
'
all='1 BEGIN
1 OVERLAP -2147483648 -2147483648 2147483647 2147483647
'
formatted='formatted pages 16 fanout 4
'
cd "$work"

on_file "a new file" 0 "$formatted" "" format places 16 4
holds "its size" [ "$(stat -c %s places)" = $((512 * 16776)) ]
lines='1 BEGIN
1 INSERT 7 0 0 10 10
1 COMMIT
1 BEGIN
1 OVERLAP 10 10 20 20
'
on_file "a script on it" 0 '1 ok
1 inserted
1 committed 1
1 ok
1 found 1
1 entry 7 0 0 10 10
' "" run places
lines='1 BEGIN
1 OVERLAP 0 0 20 20
1 DELETE 7 0 0 10 10
1 INSERT 8 1 1 2 2
2 BEGIN
2 INSERT 9 50 50 60 60
'
on_file "a second run, which leaves two transactions open" 0 '1 ok
1 found 1
1 entry 7 0 0 10 10
1 deleted
1 inserted
2 ok
2 inserted
' "" run places --frames 16
lines="$all"
on_file "a third run sees them undone" 0 '1 ok
1 found 1
1 entry 7 0 0 10 10
' "" run places --frames=4096
lines='1 BEGIN
1 COMMIT
9 BEGIN
1 HELLO
'
on_file "refusals within a script" 0 '1 ok
1 committed 2
9 refused 15 bad session
line 4 bad
' "" run --frames 64 places
lines=""
on_file "an empty script" 0 "" "" run places

on_file "a new file for what covers a box" 0 "$formatted" "" format covers 16 4
lines='1 BEGIN
1 COVERS 5 5 6 6
2 BEGIN
2 INSERT 3 0 0 9 9
'
on_file "a search for what covers a box bars a write" 0 '1 ok
1 found 0
2 ok
2 refused 5 busy 1
' "" run covers
lines='1 BEGIN
1 INSERT 1 0 0 2 2
1 INSERT 2 1 1 3 3
1 COMMIT
1 BEGIN
1 COVERS 0 0 1 1
'
on_file "what covers a box" 0 '1 ok
1 inserted
1 inserted
1 committed 1
1 ok
1 found 1
1 entry 1 0 0 2 2
' "" run covers

lines='1 BEGIN
1 COVERS 5 5 6 6
2 BEGIN
2 INSERT 3 0 0 9 9
'
on_file "a search for what covers a box bars a write in memory" 0 '1 ok
1 found 0
2 ok
2 refused 5 busy 1
' "" plain --class=1

# Boxes of space, in memory and on a file that was formatted for them: which boxes it has, the file says.
lines='1 BEGIN
1 INSERT 7 0 0 0 2 2 2
1 COVERS 1 1 1 2 2 2
1 COVERS 1 1 1 2 2 3
1 OVERLAP 2 2 2 9 9 9
'
space='1 ok
1 inserted
1 found 1
1 entry 7 0 0 0 2 2 2
1 found 0
1 found 1
1 entry 7 0 0 0 2 2 2
'
on_file "boxes of space in memory" 0 "$space" "" plain --class 3
on_file "a new file for boxes of space" 0 "$formatted" "" format space 16 4 --class 3
on_file "boxes of space on it" 0 "$space" "" run space
lines='1 BEGIN
1 INSERT 7 -1 0 -2147483648 2 2 2147483647
1 INSERT 8 0 0 0 1 1
1 INSERT 8 0 0 0 1 1 -1
1 COMMIT
'
on_file "a commit of a box of space" 0 '1 ok
1 inserted
line 3 bad
1 refused 6 bad box
1 committed 1
' "" run space
lines=""
on_file "a tree of boxes of space" 0 'commits 1 used 2 counter 0
page 1 level 1 nsn 0 right 0 count 1
child 2 -1 0 -2147483648 2 2 2147483647
page 2 level 0 nsn 0 right 0 count 2
entry 7 0 0 0 2 2 2 marked
entry 7 -1 0 -2147483648 2 2 2147483647 live
' "" dump space
on_file "what a file of space holds" 0 'ok commits 1 entries 1 used 2
' "" verify space
cp places intervals
printf '\002' | dd of=intervals bs=1 seek=519 conv=notrunc 2> /dev/null
cp intervals as_intervals
other="^gist: a number is out of its range, or the index has another kind of keys$"
for command in run dump verify; do
    on_file "an index of intervals: $command" 1 'refused 18 bad parameter
' "$other" "$command" intervals
done
holds "an index of intervals isn't changed" cmp -s intervals as_intervals

on_file "a new file for a tree" 0 "$formatted" "" format tree 16 4
lines='1 BEGIN
1 INSERT 7 0 0 10 10
1 COMMIT
1 BEGIN
1 INSERT 8 5 5 6 6
'
on_file "a script that leaves an insert open" 0 '1 ok
1 inserted
1 committed 1
1 ok
1 inserted
' "" run tree
lines=""
on_file "its tree" 0 'commits 1 used 2 counter 0
page 1 level 1 nsn 0 right 0 count 1
child 2 0 0 10 10
page 2 level 0 nsn 0 right 0 count 2
entry 7 0 0 10 10 live
entry 8 5 5 6 6 marked
' "" dump tree
cp "$work/out" dumped
on_file "its tree again" 0 "$(cat dumped)
" "" dump tree
cp tree whole
changed="$(stat -c %y tree)"
on_file "what it holds" 0 'ok commits 1 entries 1 used 2
' "" verify tree
holds "verifying leaves the file" cmp -s tree whole
holds "and when it was changed" [ "$(stat -c %y tree)" = "$changed" ]

cp places before
for words in "format places 7 4" "format places 65537 4" "format places 16 3" "format places 16 101" "format places -16 4" "format places 16" \
    "format places 16 4 4" "format places sixteen 4" "run places --frames 15" "run places --frames 4097" "run places --frames" \
    "run places --frames 16 --frames 16" "run places places" "run" "run --frames 16" "format" "dump" "dump places places" "dump places --frames 64" "verify" "verify places places" "verify places --frames 64" "open places" "migrate" "migrate places" "migrate places new new" "migrate places new --frames 15" "migrate places new --frames 4097" "migrate places new --class 1" \
    "plain --class 2" "plain --class 03" "plain --class" "plain --class 1 --class 1" "format places 16 4 --class 2" "run places --class 3" "dump places --class 1"; do
    # shellcheck disable=SC2086
    on_file "wrong words: $words" 2 "$nothing" "For more information, try '--help'" $words
done
for words in "storm 1 9 200" "storm 1 0 200" "storm 1 4 2001" "storm 1 4 0" "storm 4294967296 4 200" "storm -1 4 200" "storm 1 4" "storm 1 4 200 1" "storm"; do
    # shellcheck disable=SC2086
    on_file "wrong words: $words" 2 "$nothing" "For more information, try '--help'" $words
done
on_file "a storm" 0 'storm ok calls 800
' "" storm 1 4 200
on_file "a storm of one session" 0 'storm ok calls 2000
' "" storm 4294967295 1 2000
# Each help is the whole text in trials/help.
for command in gist plain format run dump verify migrate storm; do
    words="$command --help"
    [ "$command" != gist ] || words=--help
    # shellcheck disable=SC2086
    on_file "help of $command" 2 "$nothing" "Usage: gist" $words
    holds "the whole help of $command" cmp -s err "$top/trials/help/$command.txt"
done
on_file "a number out of its range is reported" 2 "$nothing" "7 is not in 8..=65536" format places 7 4
holds "wrong arguments don't change the file" cmp -s places before
on_file "wrong arguments for a new file" 2 "$nothing" "7 is not in 8..=65536" format new 7 4
holds "wrong arguments make no file" [ ! -e new ]

# Why a file can't be opened is written after its name; nothing is made.
missing="^gist: nowhere: no such file or directory$"
on_file "a file that isn't there" 1 "$none" "$missing" run nowhere
on_file "a file that isn't there, to be dumped" 1 "$none" "$missing" dump nowhere
on_file "a file that isn't there, to be verified" 1 "$none" "$missing" verify nowhere
holds "it isn't made" [ ! -e nowhere ]
for command in run dump verify; do
    on_file "a folder: $command" 1 "$none" "^gist: \.: is a directory$" "$command" .
    on_file "a file below a file: $command" 1 "$none" "^gist: places/x: not a directory$" "$command" places/x
done
on_file "a folder to be formatted" 1 "$none" "^gist: \.: is a directory$" format . 16 4
on_file "a folder that isn't there" 1 "$none" "^gist: no/places: no such file or directory$" format no/places 16 4
long="$(printf '%0300d' 0)"
on_file "a name of 300 bytes" 1 "$none" "^gist: $long: the name is too long$" format "$long" 16 4
longer="$(printf '%0500d/' 0 0 0)x"
on_file "a path that has no room in a line" 1 "$none" "^gist: the name is too long$" run "$longer"
truncate -s 2048000 short
shorter="^gist: the file is shorter than any index, or was cut$"
on_file "a file of 4,000 sectors" 1 'refused 17 too small
' "$shorter" run short
truncate -s $((512 * 16776)) zeros
on_file "a file of zeros" 1 'refused 14 not formatted
' "^gist: " run zeros
on_file "its tree: none" 1 'refused 14 not formatted
' "^gist: " dump zeros
on_file "zeros, verified" 1 'refused 14 not formatted
' "^gist: " verify zeros
# Files that version 1 made, and one of this version's length with its letters: each is refused by these, and left unchanged. One that was
# cut shorter than any index of that version has is refused by its length, whatever it begins with.
python3 - "$top/trials/version1" <<- 'END'
	import base64, lzma, sys
	for name in ["fresh", "log", "open", "both", "full"]:
	    with open(f"{sys.argv[1]}/{name}.xz.base64", "rb") as packed, open(f"old_{name}", "wb") as file:
	        file.write(lzma.decompress(base64.decodebytes(packed.read())))
END
cp places old_long
printf 'GISTRT01' | dd of=old_long conv=notrunc 2> /dev/null
for it in fresh log open both full long; do
    cp "old_$it" older
    for command in run dump verify; do
        on_file "a file of version 1, $it: $command" 1 'refused 21 old version
' "^gist: the index is of an older version; gist migrate makes one of this version from it$" "$command" older
    done
    holds "it stays as it was, $it" cmp -s older "old_$it"
done
holds "the least file of version 1 has no sector to spare" [ "$(stat -c %s old_fresh)" = $((512 * 4232)) ]
cp old_fresh older
truncate -s $((512 * 4231)) older
for command in run dump verify; do
    on_file "a file of version 1 that was cut: $command" 1 'refused 17 too small
' "$shorter" "$command" older
done
source "$top/trials/migrate.sh"
on_file "a name that begins with a hyphen" 0 "$formatted" "" format -- -places 16 4
on_file "a path" 0 "$formatted" "" format "$work/another place" 16 4
cp places damaged
printf '\000\000\000\002' | dd of=damaged bs=1 seek=$((16656 * 512 + 16)) conv=notrunc 2> /dev/null
cp damaged as_damaged
on_file "a damaged page, verified" 1 'refused 13 damaged
' "^gist: what the device holds is damaged: page 2: rightlinks lead to a page that is no leaf in use, or was passed$" verify damaged
holds "verifying leaves a damaged file" cmp -s damaged as_damaged
on_file "a damaged page" 1 'refused 13 damaged
' "^gist: what the device holds is damaged: page 2: rightlinks lead to a page that is no leaf in use, or was passed$" run damaged
source "$top/trials/small_records.sh"
on_file "small records, verified" 0 'ok commits 4 entries 2 used 2
' "" verify small
on_file "their tree" 0 'commits 4 used 2 counter 0
page 1 level 1 nsn 0 right 0 count 1
child 2 0 0 20 20
page 2 level 0 nsn 0 right 0 count 2
entry 8 0 0 5 5 live
entry 9 15 15 20 20 live
' "" dump small
on_file "a small record without an image" 1 'refused 13 damaged
' "log A, body 1, byte 0: a page is changed of which the log has no image$" verify imageless
on_file "a sweep of a live pair" 1 'refused 13 damaged
' "log A, body 1, byte 8266: a change does not fit its page$" verify unfit
# What commits log of a leaf and the root: images, and from the second commit on small records, each batch byte for byte.
"$program" format row 16 4 > /dev/null
"$program" run row < row_script > /dev/null
# The whole file, whose bytes no later program changes.
holds "a file of boxes of the plane has the bytes that it always had" \
    [ "$(sha256sum < row)" = "8c9f892e628d07dcc9d57d3547180377843334a1869135ff8ebcd97feaf7ad48  -" ]
batch() { printf '%s' "$@" | awk '{ printf "%08x%s", length($0) / 2, $0 }'; }
# PLACE BYTES: that place's body, in extent B, begins with these.
body_is() { [ "$(od -An -v -tx1 -j $((512 * (8456 + 64 * $1))) -N $((${#2} / 2)) row | tr -d ' \n')" = "$2" ]; }
holds "a leaf's image is logged" body_is 1 0000204a
holds "its second pair is logged small" body_is 2 "$(batch "08$(printf '%016x' 2)$(pair 8 0 0 5 5)$leaf" "$(commit 2)")"
holds "a wider bound is" body_is 3 \
    "$(batch "09${leaf%2}10000$(key 0 0 20 20)" "08$(printf '%016x' 3)$(pair 9 15 15 20 20)$leaf" "$(commit 3)")"
holds "a mark is" body_is 4 "$(batch "07$(printf '%016x' 4)$(pair 7 0 0 10 10)0001$leaf" "$(commit 4)")"
holds "a sweep is" body_is 6 "$(batch "0a${leaf}010000" "08$(printf '%016x' 6)$(pair 11 3 3 4 4)$leaf" "$(commit 6)")"
cp places cut
truncate -s $((512 * 16770)) cut
on_file "a file that was cut" 1 'refused 17 too small
' "$shorter" run cut

# A file is in use while another process runs a script on it.
in_use="^gist: places: another process has it in use$"
mkfifo lines
"$program" run places < lines > first 2>&1 &
first=$!
exec 7> lines
printf '1 BEGIN\n' >&7
while ! grep -q '1 ok' first; do sleep 0.05; done
on_file "a file in use" 1 "$none" "$in_use" run places
on_file "a file in use, to be verified" 1 "$none" "$in_use" verify places
on_file "a file in use, to be formatted" 1 "$none" "$in_use" format places 16 4
printf '1 COMMIT\n' >&7
exec 7>&-
wait "$first"
printf '1 ok\n1 committed 3\n' > wanted
holds "the first process is undisturbed" cmp -s first wanted
lines="$all"
on_file "the file is free again" 0 '1 ok
1 found 1
1 entry 7 0 0 10 10
' "" run places

# Verifiers share a file; a writer has it alone.
held='ok commits 3 entries 1 used 2
'
lines=""
exec 6< places
flock -s 6
on_file "a file that is read, verified" 0 "$held" "" verify places
on_file "a file that is read, to be run" 1 "$none" "$in_use" run places
on_file "a file that is read, to be dumped" 1 "$none" "$in_use" dump places
exec 6<&-
exec 6< places
flock -x 6
on_file "a file that another has alone, to be verified" 1 "$none" "$in_use" verify places
exec 6<&-
lines="$all"

status=0
"$program" run places < "$work" > "$work/out" 2> "$work/err" || status=$?
ended "a folder as a script on a file" 1 "$work/nothing" "^gist: the script can't be read: is a directory$"
: > "$work/out"
status=0
"$program" format places 16 4 > /dev/full 2> "$work/err" < /dev/null || status=$?
ended "a format's reply to a full disk" 1 "$work/nothing" "^gist: a reply can't be written: no space left on device$"
status=0
"$program" dump places > /dev/full 2> "$work/err" < /dev/null || status=$?
ended "a tree's text to a full disk" 1 "$work/nothing" "^gist: a reply can't be written: no space left on device$"
status=0
"$program" verify places > /dev/full 2> "$work/err" < /dev/null || status=$?
ended "verifying's reply to a full disk" 1 "$work/nothing" "^gist: a reply can't be written: no space left on device$"
status=0
"$program" storm 1 2 10 > /dev/full 2> "$work/err" < /dev/null || status=$?
ended "a storm's line to a full disk" 1 "$work/nothing" "^gist: a reply can't be written: no space left on device$"
on_file "what a format leaves" 0 '1 ok
1 found 0
' "" run places

# CLOSED WORD..: a run with these arguments on the lines in $lines, with this standard stream closed (0, 1 or 2), or all of them.
closing() {
    local closed="$1"
    shift
    printf '%s' "$lines" > "$work/given"
    : > "$work/out"
    : > "$work/err"
    status=0
    case "$closed" in
        0) "$program" "$@" <&- > "$work/out" 2> "$work/err" || status=$? ;;
        1) "$program" "$@" < "$work/given" >&- 2> "$work/err" || status=$? ;;
        2) "$program" "$@" < "$work/given" > "$work/out" 2>&- || status=$? ;;
        all) "$program" "$@" <&- >&- 2>&- || status=$? ;;
    esac
}

# Whether a file holds an index with this tree, by its dump.
has_tree() { "$program" dump "$1" | cmp -s - "$2"; }

# Whatever streams are closed, only the index is written to its file, and nothing else is read from it.
"$program" format kept 16 4 > /dev/null
cp kept fresh
printf '1 BEGIN\n1 INSERT 7 0 0 10 10\n1 COMMIT\n' | "$program" run kept > /dev/null
"$program" dump kept > tree_before
printf '1 ok\n1 inserted\n1 committed 2\n' > committed
printf 'ok commits 1 entries 1 used 2\n' > held
printf 'storm ok calls 20\n' > stormed
lines='1 BEGIN
1 INSERT 8 1 1 2 2
1 COMMIT
'
unread="^gist: the script can't be read"
unwritten="^gist: a reply can't be written"
for closed in 0 1 2 all; do
    cp kept open
    closing "$closed" run open
    case "$closed" in
        0) ended "a script with its input closed" 1 "$work/nothing" "$unread" ;;
        1) ended "a script with its output closed" 1 "$work/nothing" "$unwritten" ;;
        2) ended "a script with its error stream closed" 0 committed "" ;;
        all) ended "a script with all streams closed" 1 "$work/nothing" "" ;;
    esac
    if [ "$closed" = 2 ]; then
        "$program" dump open > tree
        holds "its commit is kept" grep -q '^entry 8 1 1 2 2 live$' tree
        holds "and what was there before" grep -q '^entry 7 0 0 10 10 live$' tree
    else
        holds "it leaves the index, closed $closed" has_tree open tree_before
    fi

    cp kept open
    closing "$closed" dump open
    case "$closed" in
        0 | 2) ended "a tree with stream $closed closed" 0 tree_before "" ;;
        1) ended "a tree with its output closed" 1 "$work/nothing" "$unwritten" ;;
        all) ended "a tree with all streams closed" 1 "$work/nothing" "" ;;
    esac
    holds "a dump leaves the index, closed $closed" has_tree open tree_before

    cp zeros open
    closing "$closed" dump open
    holds "a dump of what is no index is refused, closed $closed" [ "$status" = 1 ]
    holds "and leaves it, closed $closed" cmp -s open zeros

    rm open
    closing "$closed" format open 16 4
    printf '%s' "$formatted" > "$work/wanted"
    case "$closed" in
        0 | 2) ended "a format with stream $closed closed" 0 "$work/wanted" "" ;;
        1) ended "a format with its output closed" 1 "$work/nothing" "$unwritten" ;;
        all) ended "a format with all streams closed" 1 "$work/nothing" "" ;;
    esac
    holds "it is made whole, closed $closed" cmp -s open fresh

    cp kept open
    closing "$closed" verify open
    case "$closed" in
        0 | 2) ended "verifying with stream $closed closed" 0 held "" ;;
        1) ended "verifying with its output closed" 1 "$work/nothing" "$unwritten" ;;
        all) ended "verifying with all streams closed" 1 "$work/nothing" "" ;;
    esac
    holds "verifying leaves the file, closed $closed" cmp -s open kept

    closing "$closed" storm 1 2 10
    case "$closed" in
        0 | 2) ended "a storm with stream $closed closed" 0 stormed "" ;;
        1) ended "a storm with its output closed" 1 "$work/nothing" "$unwritten" ;;
        all) ended "a storm with all streams closed" 1 "$work/nothing" "" ;;
    esac
done

# A file is left as its command leaves it, however long it is, and no other is touched or made: this one of 14,000 pages takes some
# 60 MB, most of them a hole.
mkdir apart
"$program" format apart/east 14000 100 > /dev/null
"$program" format apart/west 16 4 > /dev/null
cp apart/west west_before
head -c 1024 apart/east > front
lines='1 BEGIN
1 INSERT 7 0 0 10 10
1 COMMIT
'
on_file "a script on a long file" 0 '1 ok
1 inserted
1 committed 1
' "" run apart/east
holds "its magic and its numbers stay" cmp -s -n 1024 front apart/east
lines=""
cp --sparse=always apart/east east_before
on_file "a long file, verified" 0 'ok commits 1 entries 1 used 2
' "" verify apart/east
holds "verifying leaves all of it" cmp -s apart/east east_before
"$program" dump apart/east > tree
holds "its tree" grep -q '^entry 7 0 0 10 10 live$' tree
holds "a dump leaves its magic and its numbers" cmp -s -n 1024 front apart/east
on_file "and its index" 0 'ok commits 1 entries 1 used 2
' "" verify apart/east
holds "no other file is touched" cmp -s apart/west west_before
on_file "a file that isn't there, beside them" 1 "$none" "no such file or directory$" run apart/north
holds "and none is made" [ "$(ls -A apart)" = "east
west" ]
rm east_before

# With a library in front of the C library that has one call fail, and counts reads.
"${CC:-cc}" -O2 -shared -fPIC -o refuse.so "$top/trials/refuse_calls.c" -ldl
# NAME STATUS OUTPUT FAULTS CALL ERROR WORD..: a run in which each call of this name fails with this error.
failing() {
    local name="$1" wanted="$2" output="$3" pattern="$4" call="$5" error="$6"
    shift 6
    printf '%s' "$output" > wanted
    status=0
    printf '%s' "$lines" | CALL="$call" ERROR="$error" LD_PRELOAD="$work/refuse.so" "$program" "$@" > out 2> err || status=$?
    ended "$name" "$wanted" "$work/wanted" "$pattern"
}
lines="$all"
for row in "1 permission denied" "13 permission denied" "30 read-only file system" "5 input or output error" "24 another error of the system"; do
    told="^gist: places: ${row#* }$"
    failing "a file isn't opened, error ${row%% *}" 1 "$none" "$told" open "${row%% *}" run places
    failing "nor to be read, error ${row%% *}" 1 "$none" "$told" open "${row%% *}" verify places
    failing "nor made, error ${row%% *}" 1 "$none" "$told" open "${row%% *}" format places 16 4
done
failing "a file isn't extended" 1 "$none" "^gist: new: no space left on device$" ftruncate 28 format new 16 4
failing "it is too long for the file system" 1 "$none" "^gist: new: file too large$" ftruncate 27 format new 16 4
rm -f new
failed_call="^gist: a read, a write or a sync of the device failed$"
for command in run dump verify; do
    failing "a read fails: $command" 1 "$none" "$failed_call" pread 5 "$command" places
    holds "and why: $command" grep -q '^gist: places: input or output error$' err
done
failing "a write fails" 1 "$none" "$failed_call" pwrite 28 format places 16 4
holds "and why" grep -q '^gist: places: no space left on device$' err
"$program" format places 16 4 > /dev/null
failing "a sync fails" 1 "$none" "$failed_call" fdatasync 5 run places
holds "and why that did" grep -q '^gist: places: input or output error$' err

# Verifying opens a file to read it alone, and the others to write it too.
for row in "run 2" "dump 2" "verify 0"; do
    COUNTED="$work/counted" LD_PRELOAD="$work/refuse.so" "$program" "${row% *}" places < /dev/null > /dev/null
    holds "how a file is opened: ${row% *}" [ "$(cut -d' ' -f2 counted)" = "${row#* }" ]
done

# As many pages are held as frames are asked for: each search of a tree of some 100 pages reads most of them with 16, and with 4,096 none
# a second time.
"$program" format many 256 4 > /dev/null
{
    echo "1 BEGIN"
    for ((i = 0; i < 200; i++)); do echo "1 INSERT $i $((37 * i % 200)) $((59 * i % 200)) $((37 * i % 200 + 1)) $((59 * i % 200 + 1))"; done
    echo "1 COMMIT"
} | "$program" run many > /dev/null
{
    echo "1 BEGIN"
    for ((i = 0; i < 20; i++)); do echo "1 OVERLAP 0 0 300 300"; done
} > searches
# FRAMES: how many reads a script makes with so many.
reads_with() {
    COUNTED="$work/counted" LD_PRELOAD="$work/refuse.so" "$program" run many --frames "$1" < searches > "found_$1"
    cut -d' ' -f1 counted
}
with_16="$(reads_with 16)"
with_64="$(reads_with 64)"
with_4096="$(reads_with 4096)"
holds "as many frames as are asked for: $with_16, $with_64, $with_4096 reads" [ $((with_16 > with_64 + 100 && with_64 > with_4096 + 500)) = 1 ]
holds "the same is found" cmp -s found_16 found_4096

# An index of 8 pages is filled, emptied and filled again, twenty times over: a full leaf is swept before it is split.
"$program" format small 8 4 > /dev/null
for ((round = 1; round <= 20; round++)); do
    for call in INSERT DELETE; do
        echo "1 BEGIN"
        for ((i = 1; i <= 12; i++)); do echo "1 $call $((100 * round + i)) $((10 * i)) 0 $((10 * i + 1)) 1"; done
        echo "1 COMMIT"
    done
done | "$program" run small > refilled
holds "an index that is emptied is filled again" [ "$(grep -c inserted refilled) $(grep -c deleted refilled) $(tail -1 refilled)" = "240 240 1 committed 40" ]

echo "$passed passed, $failed failed"
[ "$failed" = 0 ]
