#!/usr/bin/env bash
# make.sh PROGRAM OUT: files of version 1 of each kind, made by a PROGRAM of that version, packed, each with what `gist dump` prints of it.
set -euo pipefail
P="$(realpath "$1")"; mkdir -p "$2"; O="$(realpath "$2")"; W="$(mktemp -d)"; cd "$W"
pack() { "$P" dump "$1" > "$O/$1.dump"; python3 -c '
import base64,lzma,sys
open(sys.argv[2],"wb").write(base64.encodebytes(lzma.compress(open(sys.argv[1],"rb").read(),preset=9|lzma.PRESET_EXTREME)))' "$1" "$O/$1.xz.base64"; }
# fresh: formatted, and nothing done
"$P" format fresh 8 4; pack fresh
# log: commits, each with an insert or a delete, that fit into the log since the format
"$P" format log 64 8
python3 - <<'E1' | "$P" run log > /dev/null
import random
random.seed(1); live=[]
for r in range(1,61):
    print("1 BEGIN")
    for k in range(3):
        x,y=random.randrange(1000),random.randrange(1000); row=3*r+k
        print(f"1 INSERT {row} {x} {y} {x+random.randrange(30)} {y+random.randrange(30)}"); 
    print("1 COMMIT")
E1
pack log
# open: killed while a transaction has inserted three entries over a commit of two
"$P" format open 64 8
mkfifo pipe
"$P" run open < pipe > answers & pid=$!
exec 3> pipe
printf '1 BEGIN\n1 INSERT 1 0 0 10 10\n1 INSERT 2 5 5 15 15\n1 COMMIT\n2 BEGIN\n2 INSERT 3 1 1 2 2\n2 INSERT 4 2 2 3 3\n2 INSERT 5 3 3 4 4\n1 BEGIN\n1 INSERT 6 9 9 9 9\n1 COMMIT\n' >&3
for i in $(seq 100); do [ "$(grep -c committed answers)" = 2 ] && break; sleep 0.05; done
kill -9 $pid; wait $pid || true; exec 3>&-
cp open open.left; pack open; cp open.left open
# (a dump undoes what was open; the packed file is the one that was left)
python3 -c '
import base64,lzma
open("'"$O"'/open.xz.base64","wb").write(base64.encodebytes(lzma.compress(open("open","rb").read(),preset=9|lzma.PRESET_EXTREME)))'
# cut: a script that ended while a transaction had inserted three entries over a commit of two
"$P" format cut 16 4
"$P" run cut > /dev/null <<'E0'
1 BEGIN
1 INSERT 1 0 0 10 10
1 INSERT 2 5 5 15 15
1 COMMIT
2 BEGIN
2 INSERT 3 1 1 2 2
2 INSERT 4 2 2 3 3
2 INSERT 5 3 3 4 4
E0
cp cut cut.left; pack cut; cp cut.left cut
python3 -c '
import base64,lzma
open("'"$O"'/cut.xz.base64","wb").write(base64.encodebytes(lzma.compress(open("cut","rb").read(),preset=9|lzma.PRESET_EXTREME)))'
# both: checkpoints have gone from one extent to the other and back
"$P" format both 64 8
python3 - <<'E2' | "$P" run both > /dev/null
import random
random.seed(2)
for r in range(1,201):
    print("1 BEGIN")
    x,y=random.randrange(1000),random.randrange(1000)
    print(f"1 INSERT {r} {x} {y} {x+9} {y+9}")
    print("1 COMMIT")
E2
pack both
# full: no page is left for a split
"$P" format full 8 4
python3 - <<'E3' | "$P" run full > /dev/null
import random
random.seed(3)
for r in range(1,60):
    print("1 BEGIN")
    x,y=random.randrange(1000),random.randrange(1000)
    print(f"1 INSERT {r} {x} {y} {x+9} {y+9}")
    print("1 COMMIT")
E3
pack full
# rows: four entries, all deleted, and a fifth
"$P" format rows 16 4
"$P" run rows > /dev/null <<'E4'
1 BEGIN
1 INSERT 1 0 0 1 1
1 INSERT 2 0 2 1 3
1 INSERT 3 10 0 11 1
1 INSERT 4 10 2 11 3
1 COMMIT
1 BEGIN
1 DELETE 1 0 0 1 1
1 DELETE 2 0 2 1 3
1 DELETE 3 10 0 11 1
1 DELETE 4 10 2 11 3
1 COMMIT
1 BEGIN
1 INSERT 5 0 4 1 5
1 COMMIT
E4
cp rows rows.left; pack rows; cp rows.left rows
python3 -c '
import base64,lzma
open("'"$O"'/rows.xz.base64","wb").write(base64.encodebytes(lzma.compress(open("rows","rb").read(),preset=9|lzma.PRESET_EXTREME)))'
ls -l "$O"; wc -l "$O"/*.dump
