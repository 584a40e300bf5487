# Sourced by program.sh, whose program it takes: makes three files whose logs have small records, spelled by docs/FILE.md.
#   small      images of the root and of the leaf with row 7; row 8 added; the bound widened, and row 9 added; row 7 deleted and swept
#   imageless  a pair added to a page without an image
#   unfit      a live pair swept
# and a script, row_script, of six commits in one leaf: three inserts, a delete, an insert that fills it, and one that has it swept

zeros() { printf '%0*d' $((2 * $1)) 0; }
# FILE SECTOR HEX: writes these bytes from the start of a sector.
write_hex() { printf "$(sed 's/../\\x&/g' <<< "$3")" | dd of="$1" bs=512 seek="$2" conv=notrunc 2> /dev/null; }
# FILE PLACE HEX..: a batch of these records at a place of extent A, and its open gate.
write_batch() {
    local file="$1" place="$2" records
    shift 2
    records="$(printf '%s' "$@")"
    write_hex "$file" $((136 + 64 * place)) "$(printf '%08x' $((${#records} / 2)))$records"
    write_hex "$file" $((8 + place)) "a7$(zeros 511)"
}
# ROW X1 Y1 X2 Y2, or none of a row: the bytes of a pair or of a key.
pair() { printf '%016x%s' "$1" "$(key "${@:2}")"; }
key() { printf '%08x' "$@"; }
commit() { printf '03%016x%016x' "$1" "$1"; }
leaf=00000002
root_image="000100010fec0000$(zeros 12)00000001$(zeros 8)0fec0014$(zeros 4040)$(key 0 0 10 10)$leaf"
leaf_image="000000010fe70000$(zeros 12)$leaf$(zeros 8)0fe70019$(zeros 4035)$(key 0 0 10 10)$(printf '%016x' 7)00"
images="01$(zeros 8)0000000201${leaf%2}1${root_image}02$(printf '%016x' 1)$(pair 7 0 0 10 10)0100$leaf$leaf_image"
"$program" format small 16 4 > /dev/null
cp small imageless
cp small unfit
write_batch small 1 "$images" "$(commit 1)"
write_batch small 2 "08$(printf '%016x' 2)$(pair 8 0 0 5 5)$leaf" "$(commit 2)"
write_batch small 3 "09${leaf%2}10000$(key 0 0 20 20)" "08$(printf '%016x' 3)$(pair 9 15 15 20 20)$leaf" "$(commit 3)"
write_batch small 4 "07$(printf '%016x' 4)$(pair 7 0 0 10 10)0001$leaf" "$(commit 4)" "0a${leaf}010000"
write_batch imageless 1 "08$(printf '%016x' 1)$(pair 7 0 0 10 10)$leaf" "$(commit 1)"
write_batch unfit 1 "$images" "$(commit 1)" "0a${leaf}010000"
printf '1 BEGIN\n1 %s\n1 COMMIT\n' "INSERT 7 0 0 10 10" "INSERT 8 0 0 5 5" "INSERT 9 15 15 20 20" "DELETE 7 0 0 10 10" \
    "INSERT 10 1 1 2 2" "INSERT 11 3 3 4 4" > row_script
