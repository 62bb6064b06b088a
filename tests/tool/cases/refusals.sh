# Every answer number through the tool, each with its line, and the image as it was.
. "$TOP/tests/tool/lib.sh"
example_disk disk code
bytes 300 7 >other

# A damaged copy: every command that checks the image gives the same line.
damaged() { # NUMBER PLACE
    all_refuse "$2" "$1" "$(refusal "$1" "$2")"
}

# The same for the listing, which sees track 18 alone.
listing_too() { # NUMBER PLACE
    case_is "$2: listing"
    refuses "$1" before bad listing bad
    says "$(refusal "$1" "$2")"
}

for size in 0 1 1000 91392 174847; do
    head -c "$size" disk >bad
    damaged 1 "$(size_told "$size")"
    listing_too 1 "$(size_told "$size")"
done
for more in 1 256 683 21759 21760 21761 200000; do
    { cat disk; head -c "$more" /dev/zero; } >bad
    damaged 1 "$(size_told $((174848 + more)))"
    listing_too 1 "$(size_told $((174848 + more)))"
done

cp disk bad && patch bad "$(track17 0)" 36 0
damaged 2 "the link is in track 17 sector 0, file in slot 0"
cp disk bad && patch bad "$(track17 1)" 0 0
damaged 2 "the link is in track 17 sector 1, file in slot 0"
cp disk bad && patch bad $(($(slot 0) + 3)) 0 1
damaged 2 "the link is in track 18 sector 1, file in slot 0"
cp disk bad && patch bad "$(slot 0)" 18 0
damaged 2 "the link is in track 18 sector 1, in the directory"
listing_too 2 "the link is in track 18 sector 1, in the directory"
cp disk bad && patch bad "$(track17 0)" 17 0
damaged 3 "the link is in track 17 sector 0, file in slot 0"
cp disk bad && patch bad "$(slot 0)" 18 1
damaged 3 "the link is in track 18 sector 1, in the directory"
listing_too 3 "the link is in track 18 sector 1, in the directory"
for type in 0x02 0x80 0x84 0x92 0xA2; do
    cp disk bad && patch bad $(($(slot 0) + 2)) "$type"
    damaged 4 "the entry is in track 18 sector 1, slot 0"
    listing_too 4 "the entry is in track 18 sector 1, slot 0"
done
cp disk bad && patch bad $(($(slot 0) + 5)) 0xA0
damaged 5 "the entry is in track 18 sector 1, slot 0"
listing_too 5 "the entry is in track 18 sector 1, slot 0"
cp disk bad && patch bad $(($(slot 0) + 30)) 3
damaged 7 "the entry is in track 18 sector 1, slot 0"
for row in 1:21 17:19 18:17 35:17; do
    track=${row%:*}
    cp disk bad && patch bad $(($(track18 0) + 4 * track)) 1
    damaged 8 "track $track, the count is 1, ${row#*:} sectors are marked free"
done

# The buyer's own line, and a second slot with the first one's name.
cp disk three
bytes 254 1 >one
for name in ONE TWO; do
    case_is "a disk of three files, $name"
    gives 0 store three "$name" other
done
cp three bad && patch bad "$(track17 4)" 17 0
damaged 3 "the link is in track 17 sector 4, file in slot 2"
cp three bad && patch bad $(($(slot 2) + 5)) 0x43 0x4F 0x44 0x45
damaged 6 "the entry is in track 18 sector 1, slot 2"
listing_too 6 "the entry is in track 18 sector 1, slot 2"

# What is asked for.
asked() { # NUMBER ARGUMENT..
    number=$1
    shift
    case_is "$number: $*"
    refuses "$number" model disk "$@"
    says "$(refusal "$number")"
}
cp disk model
for name in "" ABCDEFGHIJKLMNOPQ 'A\xA0' '\xa0' "$(printf '%0300d' 0)"; do
    asked 9 store disk "$name" other
    asked 9 scratch disk "$name"
    asked 9 read disk "$name" out
    asked 9 format disk "$name" 01
done
for kind in 0 4 5 128 130 255 256 258 4294967295 4294967297 4294967298 18446744073709551618 "$(printf '%0400d' 2)9"; do
    asked 10 store disk NEW other "$kind"
done
asked 12 store disk CODE other
asked 13 scratch disk COD
case_is "13: a name typed in small letters is told so"
refuses 13 model disk scratch disk code
says "$(refusal 13); small letters are those with shift"
asked 13 read disk CODES out
asked 13 read disk 'C*' out
asked 13 read disk '?ODE' out
[ ! -e out ] || fail "no file out"
head -c 168149 /dev/zero >big
asked 15 store disk BIG big
case_is "one byte less than 15 fits"
head -c 168148 big >fits
gives 0 store disk BIG fits
cp disk model
asked 15 store disk MORE /dev/null

cp three disk
patch disk $(($(track18 0) + 2)) 0x42
cp disk model
asked 11 store disk NEW other
asked 11 scratch disk CODE
case_is "another DOS version is read"
gives 0 read disk CODE out
same out code "the file's bytes"
rm out

case_is "a full directory"
i=0
while [ "$i" -lt 144 ]; do
    echo "store F$i /dev/null"
    i=$((i + 1))
done >jobs
gives 0 format full FULL 01
gives 0 run jobs full
cp full model
cp full disk
asked 14 store disk ONE /dev/null
asked 14 store disk ONE big
# 14 comes before 15, and 12 before both.
asked 12 store disk F0 big

case_is "1 before 9 and 10, 9 before 10 and 2"
head -c 99 disk >short
gives 1 store short "" other 7
cp three bad && patch bad "$(track17 0)" 36 0
gives 9 store bad "" other 7
gives 10 store bad NEW other 7
gives 2 store bad NEW other
no_rest
finish
