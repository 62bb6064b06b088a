# USR files: none can be stored any more, and the library says so; those on a disk are accepted, listed, read and scratched.
. "$TOP/tests/tool/lib.sh"
example_disk model code
cp model disk
bytes 700 6 >other
retired="USR files can no longer be stored"

# A store that is refused with 10, with or without words about USR files; nothing changes.
not_stored() { # TYPE [WORDS]
    case_is "store as $1"
    refuses 10 model disk store disk NEW other "$1"
    says "$(refusal 10 "${2:-}")"
}
for type in usr USR Usr 3 03; do not_stored "$type" "$retired"; done
for type in del rel REL 0 4 7 131 259 4294967299; do not_stored "$type"; done

case_is "usr is not offered"
gives 0 store --help
! grep -qi usr seen/out || fail "no usr in the help"
refuses 64 model disk store disk NEW other what
tells "expected seq, prg or a number "

# The library is asked, so 1 and 9 come before, and 2 to 8 and 12 do not.
case_is "1 and 9 before 10, 10 before 2 and 12"
head -c 99 model >short
gives 1 store short "" other usr
says "$(refusal 1 "$(size_told 99)")"
refuses 9 model disk store disk "" other usr
says "$(refusal 9)"
cp model bad && patch bad "$(track17 0)" 36 0
cp bad before
refuses 10 before bad store bad NEW other usr
says "$(refusal 10 "$retired")"
refuses 10 model disk store disk CODE other 3
says "$(refusal 10 "$retired")"

# The same in a job list, whose image stays as it was.
in_list() { # TYPE [WORDS]
    case_is "a job that stores as $1"
    printf 'store A other\n\nstore B other %s\nstore C other seq\n' "$1" >jobs
    refuses 10 model disk run jobs disk
    stops "line 3: $(refusal 10 "${2:-}")"
}
in_list rel
in_list 4
in_list 3 "$retired"
in_list usr "$retired"
case_is "the same with --keep-going: the other jobs are done"
gives 10 run --keep-going jobs disk
[ "$(cat seen/err)" = "line 3: $(refusal 10 "$retired")
2 of 3 jobs done; disk is written" ] || fail "line 3 left out, two jobs done"
cp model wanted
gives 0 store wanted A other
gives 0 store wanted C other seq
same disk wanted "the disk without B"

# A disk from before: OLD is a USR file, HELD a locked one. They are made by their type bytes.
case_is "a disk with USR files is accepted and listed"
cp model usr
gives 0 store usr OLD other
gives 0 store usr HELD code
patch usr $(($(slot 1) + 2)) 0x83
patch usr $(($(slot 2) + 2)) 0xC3
gives 0 check usr
prints accepted
gives 0 dir usr
prints '0 "CODES           " 01 2A
2    "CODE"             PRG
3    "OLD"              USR
2    "HELD"             USR<
657 BLOCKS FREE.'
gives 0 listing usr
prints "434F444553A0A0A0A0A0A0A0A0A0A0A03031
821100434F4445A0A0A0A0A0A0A0A0A0A0A0A00200
8311024F4C44A0A0A0A0A0A0A0A0A0A0A0A0A00300
C3110548454C44A0A0A0A0A0A0A0A0A0A0A0A00200
0291"

case_is "USR files are read"
cp usr disk
gives 0 read disk OLD out
same out other "the bytes of OLD"
gives 0 read disk HELD out
same out code "the bytes of HELD"
same disk usr "the image as it was"

case_is "a store beside USR files leaves them as they are"
gives 0 store disk NEW other
gives 0 listing disk
grep -q '^8311024F4C44A0' seen/out && grep -q '^C3110548454C44A0' seen/out || fail "OLD and HELD as they were"
gives 0 read disk OLD out
same out other "the bytes of OLD"
gives 0 scratch disk NEW
same disk usr "the disk as it was before the store"

case_is "the name of a USR file is taken"
refuses 12 usr disk store disk OLD other
says "$(refusal 12)"
refuses 10 usr disk store disk OLD other usr
says "$(refusal 10 "$retired")"

case_is "USR files are scratched, and leave zeros"
gives 0 scratch disk OLD
gives 0 scratch disk HELD
same disk model "the disk before the USR files"

case_is "jobs on USR files: one becomes a SEQ file"
printf 'check\nread OLD out\nscratch OLD\nstore OLD out seq\n' >jobs
cp usr disk
gives 0 run jobs disk
cp usr wanted && patch wanted $(($(slot 1) + 2)) 0x81
same disk wanted "the same disk, with OLD as SEQ"
no_rest
finish
