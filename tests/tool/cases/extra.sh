# Tracks 36 to 40 in the two layouts that have them: files that lie there, the room that they are, their map entries and the lines for wrong ones.
. "$TOP/tests/tool/lib.sh"
. "$TOP/tests/tool/maps.sh"
bytes 300 12 >other
bytes 190246 13 >all

# Where a sector of tracks 36 to 40 starts.
extra() { # TRACK SECTOR
    echo $((256 * (683 + 17 * ($1 - 36) + $2)))
}
bytes_are() { # OFFSET BYTES
    seen=$(od -An -tx1 -j "$1" -N "$(echo "$2" | wc -w)" disk)
    [ "$seen" = " $2" ] || fail "$2 from byte $1 on, and not$seen"
}
# The tool in the layout; a refusal leaves the image as it was.
does() { # STATUS ARGUMENT..
    # shellcheck disable=SC2086 # the words of an option
    gives "$@" $layout
}
denies() { # STATUS MODEL IMAGE ARGUMENT..
    # shellcheck disable=SC2086 # the words of an option
    refuses "$@" $layout
}

# The whole disk as one file: house order goes on from 35/16 to 36/0 and ends at 40/16.
whole_disk() {
    case_is "one file on the whole disk $layout"
    cp empty disk
    does 0 store disk ALL all
    bytes_are $((256 * 682)) "24 00"
    for track in 36 37 38 39; do
        bytes_are "$(extra "$track" 15)" "$(printf '%02x' "$track") 10"
        bytes_are "$(extra "$track" 16)" "$(printf '%02x' $((track + 1))) 00"
        bytes_are "$(entry "$track")" "00 00 00 00"
    done
    bytes_are "$(extra 40 16)" "00 ff"
    bytes_are "$(entry 40)" "00 00 00 00"
    tail -c 254 all | cmp -s -i 0:$(($(extra 40 16) + 2)) -n 254 - disk || fail "the last bytes in the last sector"
    does 0 check disk
    does 0 dir disk
    prints '0 "EMPTY           " 01 2A
749  "ALL"              PRG
0 BLOCKS FREE.'
    does 0 read disk ALL out
    same out all "the bytes"
    cp disk before
    denies 15 before disk store disk MORE /dev/null
    says "$(refusal 15)"
    case_is "scratched, and the zeros that it leaves $layout"
    does 0 scratch disk ALL
    same disk empty "the empty disk"
    case_is "one byte too many, and endless files $layout"
    { cat all; echo; } >more
    for file in more /dev/zero; do
        denies 15 empty disk store disk MORE "$file"
        says "$(refusal 15)"
        printf 'store MORE %s\n' "$file" >jobs
        denies 15 empty disk run jobs disk
        stops "line 1: $(refusal 15)"
    done
    # shellcheck disable=SC2086 # the words of an option
    try store disk MORE - $layout </dev/zero
    status_is 15
    # shellcheck disable=SC2086 # the words of an option
    try store disk ALL - $layout <all
    status_is 0
    does 0 read disk ALL -
    same seen/out all "the bytes, from standard input to standard output"
}

# The example disk with the file's second sector moved to 40/16 by hand.
far_file() {
    case_is "a file that ends in the last sector of the disk $layout"
    tail -c +$(($(track17 1) + 1)) model | head -c 256 >second
    cp model far
    dd if=second of=far bs=256 seek=767 conv=notrunc 2>/dev/null
    head -c 256 /dev/zero | dd of=far bs=1 seek="$(track17 1)" conv=notrunc 2>/dev/null
    patch far "$(track17 0)" 40 16
    patch far "$(entry 17)" 20 0xFE 0xFF 0x1F
    patch far "$(entry 40)" 16 0xFF 0xFF 0
    cp far disk
    does 0 check disk
    does 0 read disk CODE out
    same out code "the bytes"
    does 0 store disk OTHER other
    does 0 scratch disk OTHER
    same disk far "the disk as it was before the store"
    does 0 scratch disk CODE
    cp far disk
    does 0 scratch disk CODE
    does 0 store disk CODE code
    same disk model "the file where house order has it"
    for link in "40 17" "41 0" "42 0" "36 17" "255 0" "35 17"; do
        cp far bad
        # shellcheck disable=SC2086 # two bytes
        patch bad "$(track17 0)" $link
        all_refuse "a link to $link" 2 "$(refusal 2 "the link is in track 17 sector 0, file in slot 0")"
    done
    cp far bad && patch bad "$(extra 40 16)" 17 0
    all_refuse "a link back, from the last sector" 3 "$(refusal 3 "the link is in track 40 sector 16, file in slot 0")"
    cp far bad && patch bad "$(extra 40 16)" 0 0
    all_refuse "no byte in the last sector" 2 "$(refusal 2 "the link is in track 40 sector 16, file in slot 0")"
}

# The lines for wrong entries; $hint tells of the other layout.
wrong_entries() {
    for track in 36 38 40; do
        for sector in 0 1 7 8 15 16; do
            cp full bad && turn "$track" "$sector"
            checked "an owned sector marked free, $track/$sector" "track $track, sector $sector $FREE$hint"
            cp empty bad && turn "$track" "$sector" && spare "$track"
            checked "a free sector marked used, $track/$sector" "track $track, sector $sector $USED$hint"
        done
        for wrong in 0 16 18 24 $((100 + track)) 255; do
            cp empty bad && count "$track" "$wrong"
            checked "the count of track $track is $wrong" "track $track, the count is $wrong, 17 sectors are marked free$hint"
            spare "$track"
            checked "the count of track $track is $wrong, bits past the last sector set" "track $track, the count is $wrong, 17 sectors are marked free$hint"
        done
        cp full bad && count "$track" 1 && spare "$track"
        checked "no free sector on track $track" "track $track, the count is 1, 0 sectors are marked free$hint"
    done
    cp far bad && turn 40 16
    all_refuse "a file's sector marked free" 8 "$(refusal 8 "track 40, sector 16 $FREE$hint")"
    cp far bad && turn 39 3 9
    all_refuse "free sectors marked used" 8 "$(refusal 8 "track 39, sector 3 $USED$hint")"
    cp far bad && count 40 17
    all_refuse "a count that is too high" 8 "$(refusal 8 "track 40, the count is 17, 16 sectors are marked free$hint")"
    cp far bad && turn 36 2 && turn 35 16
    checked "track 35 before 36" "track 35, sector 16 $USED"
    cp far bad && turn 40 1 && count 36 3
    checked "track 36 before 40" "track 36, the count is 3, 17 sectors are marked free$hint"
    cp far bad && turn 36 0 && count 1 3
    checked "track 1 before 36" "track 1, the count is 3, 21 sectors are marked free"
    case_is "before 11, and after 9, 10 and 7 $layout"
    cp far bad && turn 40 16 && patch bad $(($(track18 0) + 2)) 0x42
    does 8 store bad NEW other
    does 9 store bad "" other
    does 10 store bad NEW other 7
    patch bad $(($(slot 0) + 30)) 3
    does 7 store bad NEW other
}

# The bits past the last sectors of these tracks: accepted, not counted, left by store and scratch, 0 after format.
spare_bits() {
    case_is "bits past the last sectors $layout"
    cp empty bad
    for track in 36 37 38 39 40; do spare "$track"; done
    cp bad spared
    cp bad disk
    does 0 check disk
    does 0 dir disk
    [ "$(tail -n 1 seen/out)" = "749 BLOCKS FREE." ] || fail "749 blocks free"
    does 0 store disk ALL all
    for track in 36 37 38 39 40; do bytes_are "$(entry "$track")" "00 00 00 fe"; done
    does 0 check disk
    does 0 scratch disk ALL
    same disk spared "the disk as it was before the store"
    does 0 format disk EMPTY 01
    same disk empty "the empty disk"
}

for row in "speeddos 0xC0 dolphin (2)" "dolphin 0xAC speeddos (1)"; do
    layout="--layout ${row%% *}" rest=${row#* }
    entries=${rest%% *} hint="; layout ${rest#* } has this entry elsewhere"
    case_is "a disk that is empty, and one that is full $layout"
    rm -f empty
    example_disk_40 model code "$entries"
    does 0 format empty EMPTY 01
    does 0 listing empty
    [ "$(tail -n 1 seen/out)" = 02ED ] || fail "02ED free sectors"
    cp empty full
    fill full 749
    for track in 1 18 35 36 40; do
        [ "$(od -An -tx1 -j "$(entry "$track")" -N 4 full)" = " 00 00 00 00" ] || fail "no sector of track $track is free"
    done
    whole_disk
    far_file
    wrong_entries
    spare_bits
done
finish
