# Indexes of the format's first version in new files. Read by trials/program.sh, in its folder and with its functions.

# KIND: unpacks the file of version 1 of this kind as `old`; `as_old` is its copy, and `tree` what a program of that version printed of it.
unpack() {
    python3 - "$top/trials/version1/$1.xz.base64" old <<'P'
import base64
import lzma
import sys
with open(sys.argv[1], "rb") as packed, open(sys.argv[2], "wb") as file:
    file.write(lzma.decompress(base64.decodebytes(packed.read())))
P
    cp old as_old
    cp "$top/trials/version1/$1.dump" tree
}

# KIND COMMITS USED: a file of this kind is migrated, isn't changed, and its tree is in the new file.
migrates() {
    unpack "$1"
    rm -f migrated
    on_file "a file of version 1, $1, is migrated" 0 "migrated commits $2 used $3
" "" migrate old migrated
    holds "it stays as it is, $1" cmp -s old as_old
    holds "the new file has the size of an index of its pages, $1" \
        [ "$(stat -c %s migrated)" = $((512 * (16648 + 8 * 0x$(od -An -tx1 -j 512 -N 4 old | tr -d ' \n')))) ]
    on_file "its tree, $1" 0 "$(cat tree)
" "" dump migrated
}

lines=""
migrates fresh 0 2
migrates log 60 40
migrates open 2 2
migrates cut 1 3
on_file "what a transaction that was open had written is undone" 0 'ok commits 1 entries 2 used 3
' "" verify migrated
migrates both 200 43
migrates full 59 8
migrates rows 3 2
for it in run dump verify; do
    on_file "a file that version 1 made: $it" 1 'refused 21 old version
' "^gist: the index is of an older version; gist migrate makes one of this version from it$" "$it" old
done
holds "it isn't changed" cmp -s old as_old
lines='1 BEGIN
1 OVERLAP -2147483648 -2147483648 2147483647 2147483647
'
on_file "what is in the new file" 0 '1 ok
1 found 1
1 entry 5 0 4 1 5
' "" run migrated
lines=""

# What the new file held is lost, and a longer one keeps its length.
unpack open
cp places migrated
truncate -s $((512 * 20000)) migrated
on_file "a migration over another index" 0 'migrated commits 2 used 2
' "" migrate old migrated --frames 16
holds "the file's length stays" [ "$(stat -c %s migrated)" = $((512 * 20000)) ]
on_file "what it holds then" 0 'ok commits 2 entries 3 used 2
' "" verify migrated

# Both names of one file; a file in use; a file that can't be made.
on_file "a migration of a file to itself" 1 "$none" "^gist: old: another process has it in use$" migrate old old
ln -f old again
on_file "a migration to another name of the file" 1 "$none" "^gist: again: another process has it in use$" migrate old again
holds "the file stays as it is" cmp -s old as_old
cp places used
cp used as_used
( exec 9<> used; flock -x 9; exec sleep 60 ) > /dev/null 2>&1 &
holder=$!
while flock -n used true; do sleep 0.05; done
on_file "a migration to a file in use" 1 "$none" "^gist: used: another process has it in use$" migrate old used
holds "the file in use stays as it is" cmp -s used as_used
kill "$holder"
wait "$holder" || true
( exec 9<> old; flock -x 9; exec sleep 60 ) > /dev/null 2>&1 &
holder=$!
while flock -n -s old true; do sleep 0.05; done
on_file "a migration of a file in use" 1 "$none" "^gist: old: another process has it in use$" migrate old new
holds "no new file is made of it" [ ! -e new ]
kill "$holder"
wait "$holder" || true
on_file "a migration of no file" 1 "$none" "^gist: nowhere: no such file or directory$" migrate nowhere new
on_file "a migration to no folder" 1 "$none" "^gist: no/new: no such file or directory$" migrate old no/new

# What isn't an index of version 1 is refused before the new file is made.
on_file "a migration of an index of this version" 1 'refused 14 not formatted
' "^gist: " migrate places new
on_file "a migration of zeros" 1 'refused 14 not formatted
' "^gist: " migrate zeros new
on_file "a migration of a file of 4,000 sectors" 1 'refused 17 too small
' "$shorter" migrate short new
printf '\002' | dd of=old bs=1 seek=519 conv=notrunc 2> /dev/null
on_file "a migration of intervals" 1 'refused 18 bad parameter
' "$other" migrate old new
unpack open
printf '\000\000\000\007' | dd of=old bs=1 seek=512 conv=notrunc 2> /dev/null
on_file "a migration of an index of seven pages" 1 'refused 18 bad parameter
' "$other" migrate old new
holds "no new file is made" [ ! -e new ]
# Damage is found before anything is written over another index.
unpack log
for body in 40 2120; do printf '\377' | dd of=old bs=1 seek=$((512 * body)) conv=notrunc 2> /dev/null; done
cp places migrated
truncate -s $((512 * 20000)) migrated
cp migrated as_migrated
on_file "a migration of a damaged index" 1 'refused 13 damaged
' "^gist: what the device holds is damaged$" migrate old migrated
holds "the other index stays as it is" cmp -s migrated as_migrated
unpack open
truncate -s $((512 * 4679)) old
on_file "a migration of a file that was cut" 1 'refused 17 too small
' "$shorter" migrate old migrated
holds "the other index stays as it is then too" cmp -s migrated as_migrated
