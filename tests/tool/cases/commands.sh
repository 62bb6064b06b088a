# What each command does when it is done: document 01's examples, lengths, kinds, and what stays as it is.
. "$TOP/tests/tool/lib.sh"
example_disk model code
bytes 168656 3 >all

case_is "01's example: format, then store"
gives 0 format disk CODES 01
done_line && quiet_output
[ "$(wc -c <disk)" -eq 174848 ] || fail "174,848 bytes"
gives 0 store disk CODE code
done_line && quiet_output
same disk model "the example disk of document 01"
no_rest

case_is "check prints accepted"
try check disk </dev/null
status_is 0
[ "$(cat seen/out seen/err)" = accepted ] || fail "accepted"
same disk model "the image as it was"

case_is "01's example: the listing"
gives 0 listing disk
prints "434F444553A0A0A0A0A0A0A0A0A0A0A03031
821100434F4445A0A0A0A0A0A0A0A0A0A0A0A00200
0296"
quiet_error

case_is "read to a new file, and over an old one"
gives 0 read disk CODE out
done_line && quiet_output
same out code "the bytes stored"
bytes 5000 4 >out
gives 0 read disk CODE out
same out code "the bytes stored"
same disk model "the image as it was"

case_is "scratch leaves zeros in the sectors"
gives 0 scratch disk CODE
done_line && quiet_output
gives 0 format fresh CODES 01
same disk fresh "a fresh disk"
gives 13 read disk CODE out
same out code "the file of the earlier read as it was"

case_is "format empties what is there, an unsound image too"
cp model disk && patch disk "$(track17 0)" 99 99
gives 0 format disk CODES 01
same disk fresh "a fresh disk"

case_is "format refuses a file of another size"
head -c 1000 model >short
cp short before
refuses 1 before short format short CODES 01
says "$(refusal 1 "$(size_told 1000)")"
{ cat model; echo; } >long
cp long before
refuses 1 before long format long CODES 01
says "$(refusal 1 "$(size_told 174849)")"
: >empty
cp empty before
refuses 1 before empty format empty CODES 01

for length in 0 1 253 254 255 507 508 509 65536 168656; do
    case_is "$length bytes, there and back"
    head -c "$length" all >in
    cp fresh disk
    gives 0 store disk DATA in
    gives 0 read disk DATA out
    same in out "the $length bytes"
    gives 0 scratch disk DATA
    same disk fresh "a fresh disk"
done
case_is "one byte too many"
{ cat all; echo; } >in
refuses 15 fresh disk store disk DATA in

# The type byte of the first slot.
type_is() { # OCTAL
    [ "$(tail -c +$(($(slot 0) + 3)) disk | head -c 1 | od -An -to1 | tr -d ' ')" = "$1" ] || fail "type byte $1"
}
for pair in seq:201 prg:202 1:201 2:202; do
    case_is "type ${pair%:*}"
    cp fresh disk
    gives 0 store disk DATA code "${pair%:*}"
    type_is "${pair#*:}"
done
case_is "prg if no type is given"
cp fresh disk
gives 0 store disk DATA code
type_is 202

case_is "locked files are read and scratched"
cp model disk && patch disk $(($(slot 0) + 2)) 0xC2
gives 0 read disk CODE out
same out code "the bytes"
gives 0 scratch disk CODE
same disk fresh "a fresh disk"

case_is "the manual's examples"
rm disk
cp code code.prg
gives 0 format disk.d64 CODES 01
gives 0 store disk.d64 CODE code.prg
gives 0 dir disk.d64
"$TOOL" read disk.d64 CODE - 2>/dev/null | cmp - code.prg || fail "the bytes through a pipe"
gives 0 scratch disk.d64 CODE
same disk.d64 fresh "a fresh disk"

case_is "an image and files in other folders"
mkdir -p deep/er
gives 0 format deep/er/disk CODES 01
gives 0 store "$PWD/deep/er/disk" CODE ./code
same deep/er/disk model "the example disk"
gives 0 read deep/../deep/er/disk CODE deep/out
same deep/out code "the bytes"
no_rest

case_is "file names with blanks, quotes and other bytes"
odd=$(printf 'a "b\047 \\ \303\244\001.d64')
gives 0 format "$odd" CODES 01
cp code " $odd"
gives 0 store "$odd" CODE " $odd"
same "$odd" model "the example disk"
finish
