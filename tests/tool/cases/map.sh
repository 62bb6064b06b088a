# A wrong map entry: every command that checks the image names the lowest sector of the track whose mark is wrong, with its mark, or the count where all marks
# are right. Bits past the track's last sector are neither named nor counted. The image stays as it was.
. "$TOP/tests/tool/lib.sh"
. "$TOP/tests/tool/maps.sh"
example_disk disk code
bytes 300 9 >other

case_is "a disk that is empty, and one that is full"
gives 0 format empty EMPTY 01
cp empty full
fill full 664
[ "$(od -An -v -tu1 -j $(($(track18 0) + 4)) -N 140 full | tr -d ' 0\n')" = "" ] || fail "no sector of the full disk is free"

# Each of the lines from every command.
cp disk bad && turn 17 4
all_refuse "a free sector marked used" 8 "$(refusal 8 "track 17, sector 4 $USED")"
cp disk bad && turn 17 1
all_refuse "a file's sector marked free" 8 "$(refusal 8 "track 17, sector 1 $FREE")"
cp disk bad && count 17 18
all_refuse "a count that is too low" 8 "$(refusal 8 "track 17, the count is 18, 19 sectors are marked free")"
cp disk bad && count 17 20 && spare 17
all_refuse "a count that is too high, beside bits past the last sector" 8 "$(refusal 8 "track 17, the count is 20, 19 sectors are marked free")"
head -c 174848 /dev/zero >bad
all_refuse "an image of zeros" 8 "$(refusal 8 "track 1, sector 0 $USED")"

# Sectors at both ends of a track and of the map's bytes, on the first and last tracks of each length.
for ends in 1:20 17:20 18:18 24:18 25:17 30:17 31:16 35:16; do
    track=${ends%:*} last=${ends#*:}
    for sector in 0 1 7 8 15 "$last"; do
        cp full bad && turn "$track" "$sector"
        checked "an owned sector marked free, $track/$sector" "track $track, sector $sector $FREE"
        cp empty bad && turn "$track" "$sector"
        case $track/$sector in 18/0 | 18/1) mark=$FREE ;; *) mark=$USED ;; esac
        checked "turned on an empty disk, $track/$sector" "track $track, sector $sector $mark"
    done
    cp full bad && turn "$track" "$last" && spare "$track"
    checked "the last sector of track $track, bits past it set" "track $track, sector $last $FREE"
    cp empty bad && turn "$track" "$last" && spare "$track"
    checked "the last sector of track $track marked used, bits past it set" "track $track, sector $last $USED"
done

# The lowest of several, and the first track.
cp disk bad && turn 17 4 9
checked "two sectors marked used" "track 17, sector 4 $USED"
cp disk bad && turn 17 20 7
checked "two in two bytes of the map" "track 17, sector 7 $USED"
cp disk bad && turn 17 1 5
checked "an owned sector before a free one" "track 17, sector 1 $FREE"
cp disk bad && turn 5 20 && turn 9 0
checked "a track before another, its sector higher" "track 5, sector 20 $USED"
cp disk bad && turn 9 3 && count 5 1
checked "a track's count before another's mark" "track 5, the count is 1, 21 sectors are marked free"
cp disk bad && turn 5 3 && count 9 1
checked "a track's mark before another's count" "track 5, sector 3 $USED"
cp disk bad && turn 1 0 1 2 3 4 5 6 7 8 9 10 11 12 13 14 15 16 17 18 19 20
checked "all sectors of a track" "track 1, sector 0 $USED"
case_is "a disk whose first file is gone"
cp disk holed
gives 0 store holed LATER other
gives 0 scratch holed CODE
cp holed bad && turn 17 1 2
checked "a free sector before an owned one" "track 17, sector 1 $USED"
cp holed bad && turn 17 2 4
checked "an owned sector behind free ones whose marks are right" "track 17, sector 2 $FREE"

# A wrong mark comes before the count, whatever that is.
for wrong in 0 18 19 20 255; do
    cp disk bad && turn 17 4 && count 17 "$wrong"
    checked "a sector marked used, the count is $wrong" "track 17, sector 4 $USED"
done
cp disk bad && turn 17 0 5
checked "two marks exchanged, so that the count is right" "track 17, sector 0 $FREE"
cp disk bad && turn 17 20 && spare 17 && count 17 21
checked "a bit past the last sector, counted for the last one" "track 17, sector 20 $USED"

# The count, and what is counted: the sectors that the track has. Every track's count is its own.
for row in 1:21 2:21 17:21 18:17 19:19 24:19 25:18 30:18 31:17 35:17; do
    track=${row%:*} free=${row#*:}
    for wrong in 0 $((free - 1)) $((free + 1)) 24 $((100 + track)) 255; do
        cp empty bad && count "$track" "$wrong"
        checked "the count of track $track is $wrong" "track $track, the count is $wrong, $free sectors are marked free"
        spare "$track"
        checked "the count of track $track is $wrong, bits past the last sector set" "track $track, the count is $wrong, $free sectors are marked free"
    done
done
case_is "a disk with one free sector"
cp full single
gives 0 scratch single F1
cp single bad && count 17 0
checked "one free sector" "track 17, the count is 0, 1 sector is marked free"
cp single bad && count 17 2 && spare 17
checked "one free sector, bits past the last one set" "track 17, the count is 2, 1 sector is marked free"
cp single bad && count 1 1
checked "no free sector" "track 1, the count is 1, 0 sectors are marked free"
cp single bad && count 35 255 && spare 35
checked "no free sector, bits past the last one set" "track 35, the count is 255, 0 sectors are marked free"

# Job lists: the line's number stands before it, and the image is left alone.
listed() { # WHAT PLACE
    cp bad before
    for job in check "read CODE out" "store NEW other" "scratch CODE"; do
        case_is "$1, in a list: $job"
        printf '# a list\n\n%s\nformat NEVER 01\n' "$job" >jobs
        refuses 8 before bad run jobs bad
        stops "line 3: $(refusal 8 "$2")"
        [ ! -e out ] || fail "no file out"
    done
}
cp disk bad && turn 17 4
listed "a free sector marked used" "track 17, sector 4 $USED"
cp disk bad && turn 17 1
listed "a file's sector marked free" "track 17, sector 1 $FREE"
cp disk bad && count 17 18
listed "a count that is too low" "track 17, the count is 18, 19 sectors are marked free"

case_is "an empty list checks the image"
cp bad before
: >jobs
refuses 8 before bad run jobs bad
stops "$(refusal 8 "track 17, the count is 18, 19 sectors are marked free")"

case_is "every job of a list that goes on"
cp disk bad && turn 18 0 && cp bad before
printf 'check\nread CODE out\n\nstore NEW other\nscratch CODE\n' >jobs
refuses 8 before bad run --quiet --keep-going jobs bad
for line in 1 2 4 5; do echo "line $line: $(refusal 8 "track 18, sector 0 $FREE")"; done >wanted
same seen/err wanted "the line of each job"

case_is "a disk that is formatted in the list"
printf 'check\nformat EMPTY 01\ncheck\n' >jobs
gives 8 run --keep-going jobs bad
same bad empty "the empty disk"

# Where the image comes from, and what else it is.
cp disk bad && turn 17 4
case_is "standard input"
for command in "check -" "dir -" "read - CODE out" "store - NEW other" "scratch - CODE"; do
    # shellcheck disable=SC2086 # the words of a command
    try $command <bad
    status_is 8
    says "$(refusal 8 "track 17, sector 4 $USED")"
    quiet_output
done
[ ! -e out ] || fail "no file out"
case_is "--quiet does not keep it back"
gives 8 check --quiet bad
says "$(refusal 8 "track 17, sector 4 $USED")"
case_is "before 11, and after 9, 10 and 7"
patch bad $(($(track18 0) + 2)) 0x42
gives 8 store bad NEW other
says "$(refusal 8 "track 17, sector 4 $USED")"
gives 9 store bad "" other
gives 10 store bad NEW other 7
patch bad $(($(slot 0) + 30)) 3
gives 7 store bad NEW other

case_is "the listing does not look at the marks"
cp disk bad && turn 17 4
gives 0 listing disk
cp seen/out sleeve
gives 0 listing bad
same seen/out sleeve "the listing of the disk with a right map"
quiet_error
finish
