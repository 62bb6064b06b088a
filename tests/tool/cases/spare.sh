# The bits of the map past a track's last sector: any are accepted and none is counted, store and scratch leave them as they are, format writes 0.
. "$TOP/tests/tool/lib.sh"
example_disk model code
bytes 700 6 >other

# A track's four bytes of the map, as the papers write them.
entry_is() { # IMAGE TRACK BYTES
    seen=$(od -An -tx1 -j $(($(track18 0) + 4 * $2)) -N 4 "$1" | tr a-f A-F)
    [ "$seen" = " $3" ] || fail "track $2's entry in $1 is $3, and not$seen"
}

# Gives the bits past the last sectors of tracks FIRST to LAST the value that they have in VALUE. A track has 21, 19, 18 or 17 sectors, so all of them are in
# the last byte of its entry.
spare() { # IMAGE VALUE [FIRST LAST]
    at=0 map=
    for byte in $(od -An -v -tu1 -j "$(track18 0)" -N 144 "$1"); do
        track=$((at / 4))
        if [ $((at % 4)) -eq 3 ] && [ "$track" -ge "${3:-1}" ] && [ "$track" -le "${4:-35}" ]; then
            if [ "$track" -le 17 ]; then past=0xE0; elif [ "$track" -le 24 ]; then past=0xF8; elif [ "$track" -le 30 ]; then past=0xFC; else past=0xFE; fi
            byte=$((byte & ~past | $2 & past))
        fi
        map="$map $byte" at=$((at + 1))
    done
    # shellcheck disable=SC2059,SC2086 # the bytes, each as an octal number
    printf "$(printf '\\%03o' $map)" | dd of="$1" bs=1 seek="$(track18 0)" conv=notrunc 2>/dev/null
}

# What the same commands leave on the disk without these bits; the bits are then set in it by hand. A long file changes the entry of every track but 18, a
# directory that grows that of track 18.
head -c 165000 /dev/zero | tr '\0' x >long
i=0
while [ "$i" -lt 8 ]; do
    echo "store SMALL$i code seq"
    i=$((i + 1))
done >many
cp model stored && cp model filled && cp model grown
case_is "the same disk without such bits"
gives 0 store stored NEW other
gives 0 store filled LONG long
gives 0 run many grown
gives 0 dir model
mv seen/out directory
gives 0 listing model
mv seen/out sleeve

# A disk that has these bits, through every command.
keeps() { # WHAT VALUE [FIRST LAST]
    about=$1
    shift
    for image in model stored filled grown; do cp "$image" "$image.spare" && spare "$image.spare" "$@"; done
    cp model.spare disk
    case_is "$about: checked, listed and read"
    gives 0 check disk
    prints accepted
    gives 0 dir disk
    same seen/out directory "the directory without such bits"
    gives 0 listing disk
    same seen/out sleeve "the listing without such bits"
    gives 0 read disk CODE out
    same out code "the bytes of CODE"
    same disk model.spare "the image as it was"
    case_is "$about: a file stored, read and scratched"
    gives 0 store disk NEW other
    same disk stored.spare "the map's other bits as without them, these as they were"
    gives 0 read disk NEW out
    same out other "the bytes of NEW"
    gives 0 scratch disk NEW
    same disk model.spare "the disk as it was before the store"
    case_is "$about: all tracks used, and given back"
    gives 0 store disk LONG long
    same disk filled.spare "the map's other bits as without them, these as they were"
    gives 0 scratch disk LONG
    same disk model.spare "the disk as it was before the store"
    case_is "$about: a directory that grows"
    gives 0 run many disk
    same disk grown.spare "the map's other bits as without them, these as they were"
}
keeps "all set" 0xFF
keeps "some set" 0xAA
keeps "the others set" 0x55
keeps "tracks of 21 sectors" 0xFF 1 17
keeps "tracks of 19 sectors" 0xFF 18 24
keeps "tracks of 18 sectors" 0xFF 25 30
keeps "tracks of 17 sectors" 0xFF 31 35

# One bit alone: the first past the last sector, and the last of the 24.
for place in 1:0x20 1:0x80 17:0x20 17:0x80 18:0x08 18:0x80 24:0x08 25:0x04 25:0x80 30:0x04 31:0x02 35:0x02 35:0x80; do
    alone=${place%:*} bit=${place#*:}
    case_is "one bit alone, $bit in the last byte of track $alone"
    cp model disk && spare disk "$bit" "$alone" "$alone"
    cp disk before
    gives 0 check disk
    prints accepted
    cp stored wanted && spare wanted "$bit" "$alone" "$alone"
    gives 0 store disk NEW other
    same disk wanted "the map's other bits as without it, this one as it was"
    gives 0 scratch disk NEW
    same disk before "the disk as it was before the store"
done

case_is "document 000's 15 FF FF FF: a track of 21 sectors, all free"
cp model disk && spare disk 0xFF
entry_is disk 16 "15 FF FF FF"
entry_is disk 17 "13 FC FF FF"
entry_is disk 18 "11 FC FF FF"
entry_is disk 35 "11 FF FF FF"
gives 0 scratch disk CODE
entry_is disk 17 "15 FF FF FF"
gives 0 store disk CODE code
entry_is disk 17 "13 FC FF FF"
gives 0 check disk

# They are no room, and not counted.
case_is "a disk is full without them"
head -c 168149 /dev/zero >big
cp disk before
refuses 15 before disk store disk BIG big
says "$(refusal 15)"
head -c 168148 big >fits
gives 0 store disk BIG fits
entry_is disk 1 "00 00 00 E0"
entry_is disk 35 "00 00 00 FE"
gives 0 dir disk
grep -qx '0 BLOCKS FREE.' seen/out || fail "no block free"
cp disk before
refuses 15 before disk store disk MORE /dev/null
gives 0 scratch disk BIG
gives 0 check disk
case_is "a directory is full without them"
cp model disk && spare disk 0xFF
i=1
while [ "$i" -lt 144 ]; do
    echo "store F$i /dev/null"
    i=$((i + 1))
done >jobs
gives 0 run jobs disk
entry_is disk 18 "00 00 00 F8"
cp disk before
refuses 14 before disk store disk ONE /dev/null
says "$(refusal 14)"

# A wrong entry stays wrong: every command says so, and nothing changes.
wrong() { # WHAT PLACE TRACK BYTE..
    about=$1 place=$2 track=$3
    shift 3
    cp model bad && patch bad $(($(track18 0) + 4 * track)) "$@"
    all_refuse "$about" 8 "$(refusal 8 "track $track, $place")"
}
rm out
wrong "a count of all 24 bits" "the count is 24, 21 sectors are marked free" 1 24 0xFF 0xFF 0xFF
wrong "a count with one of them" "the count is 22, 21 sectors are marked free" 1 22 0xFF 0xFF 0x3F
wrong "a count of track 17 with them" "the count is 22, 19 sectors are marked free" 17 22 0xFC 0xFF 0xFF
wrong "a count of track 18 with them" "the count is 22, 17 sectors are marked free" 18 22 0xFC 0xFF 0xFF
wrong "a count of track 19 with them" "the count is 24, 19 sectors are marked free" 19 24 0xFF 0xFF 0xFF
wrong "a count of track 25 with them" "the count is 24, 18 sectors are marked free" 25 24 0xFF 0xFF 0xFF
wrong "a count of track 35 with them" "the count is 24, 17 sectors are marked free" 35 24 0xFF 0xFF 0xFF
wrong "one of them in the place of a sector's bit" "sector 20 is marked used but owned by nobody" 1 21 0xFF 0xFF 0x2F
wrong "a sector's bit missing, and not counted" "sector 16 is marked used but owned by nobody" 35 16 0xFF 0xFF 0xFE
wrong "an owned sector's bit set, and counted" "sector 0 is marked free but owned" 17 20 0xFD 0xFF 0xFF
wrong "only these bits" "sector 0 is marked used but owned by nobody" 31 7 0 0 0xFE

case_is "of several tracks only a wrong one is named"
cp model bad && spare bad 0xFF
patch bad $(($(track18 0) + 4 * 30)) 24
cp bad before
refuses 8 before bad check bad
says "$(refusal 8 "track 30, the count is 24, 18 sectors are marked free")"

case_is "format clears them"
cp model disk && spare disk 0xFF
gives 0 format disk FRESH 02
gives 0 format fresh FRESH 02
same disk fresh "the same as a new disk"
entry_is disk 1 "15 FF FF 1F"
entry_is disk 18 "11 FC FF 07"
entry_is disk 25 "12 FF FF 03"
entry_is disk 35 "11 FF FF 01"

case_is "a refused format leaves them"
cp model disk && spare disk 0xFF
cp disk before
refuses 9 before disk format disk "" 02

case_is "jobs keep them, up to a format"
printf 'check\nstore NEW other\nread NEW out\nscratch CODE\n' >jobs
cp stored wanted
gives 0 scratch wanted CODE
spare wanted 0xFF
gives 0 run jobs disk
same disk wanted "as without them, and they as they were"
same out other "the bytes of NEW"
printf 'scratch NEW\nformat FRESH 02\nstore CODE code\n' >jobs
gives 0 run jobs disk
gives 0 store fresh CODE code
same disk fresh "the same as a new disk with CODE"

case_is "jobs of which one is refused leave them"
cp model disk && spare disk 0xAA
cp disk before
printf 'store NEW other\nscratch NONE\n' >jobs
refuses 13 before disk run jobs disk

case_is "standard input to standard output"
cp model disk && spare disk 0xFF
try store - NEW other <disk
status_is 0
cp stored wanted && spare wanted 0xFF
same seen/out wanted "the image with NEW, these bits as they were"
no_rest
finish
