# --layout: every command and job list in every layout, named in every way; sizes that are not the layout's; a disk that is accepted in two layouts; layouts
# that are none. The disks that are expected are made by hand.
. "$TOP/tests/tool/lib.sh"
. "$TOP/tests/tool/maps.sh"
example_disk model.35 code
example_disk_40 model.speeddos code 0xC0
example_disk_40 model.dolphin code 0xAC
bytes 300 11 >other
printf '# the example\nformat CODES 01\nstore CODE code\n\ncheck\nread CODE out\n' >example.jobs

# The disk without its file: the file's two sectors and its slot are zeros, and track 17 has 21 free sectors again.
for name in 35 speeddos dolphin; do
    cp model.$name fresh.$name
    head -c 512 /dev/zero | dd of=fresh.$name bs=1 seek="$(track17 0)" conv=notrunc 2>/dev/null
    head -c 30 /dev/zero | dd of=fresh.$name bs=1 seek=$(($(slot 0) + 2)) conv=notrunc 2>/dev/null
    patch fresh.$name $(($(track18 0) + 4 * 17)) 21 0xFF 0xFF 0x1F
done

# The tool in $layout; a refusal leaves the image bad as it was.
does() { # STATUS ARGUMENT..
    # shellcheck disable=SC2086 # the words of an option
    gives "$@" $layout
}
denies() { # STATUS ARGUMENT..
    denied=$1
    shift
    # shellcheck disable=SC2086 # the words of an option
    refuses "$denied" before bad "$@" $layout
}

# Every command, and a list, in the layout that the words name.
through() { # NAME FREE_BLOCKS LISTING'S_LAST_LINE [WORD..]
    fresh=fresh.$1 model=model.$1 free=$2 sleeve=$3
    shift 3
    rm -f disk out
    case_is "format and store, layout: $*"
    gives 0 format disk CODES 01 "$@"
    done_line && quiet_output
    same disk "$fresh" "the fresh disk"
    gives 0 store "$@" disk CODE code
    same disk "$model" "the example disk"
    case_is "check, dir, listing and read, layout: $*"
    gives 0 check disk "$@"
    prints accepted
    gives 0 dir "$@" disk
    prints '0 "CODES           " 01 2A
2    "CODE"             PRG
'"$free BLOCKS FREE."
    gives 0 listing "$@" disk
    prints "434F444553A0A0A0A0A0A0A0A0A0A0A03031
821100434F4445A0A0A0A0A0A0A0A0A0A0A0A00200
$sleeve"
    gives 0 read disk "$@" CODE out
    same out code "the bytes stored"
    same disk "$model" "the image as it was"
    case_is "scratch, and format over what is there, layout: $*"
    gives 0 scratch disk CODE "$@"
    same disk "$fresh" "the fresh disk"
    cp "$model" disk
    gives 0 format "$@" disk CODES 01
    same disk "$fresh" "the fresh disk"
    case_is "a list, layout: $*"
    rm disk out
    gives 0 run "$@" example.jobs disk
    same disk "$model" "the example disk"
    same out code "the bytes that a job read"
    gives 0 run example.jobs disk "$@" --keep-going
    same disk "$model" "the example disk"
    case_is "standard input and output, layout: $*"
    gives 0 format - CODES 01 "$@"
    same seen/out "$fresh" "the fresh disk on standard output"
    try store "$@" - CODE code <"$fresh"
    status_is 0
    same seen/out "$model" "the example disk on standard output"
    try scratch "$@" - CODE <"$model"
    status_is 0
    same seen/out "$fresh" "the fresh disk on standard output"
    try run "$@" example.jobs - <"$fresh"
    status_is 0
    same seen/out "$model" "the example disk on standard output"
    try check - "$@" <"$model"
    status_is 0
    no_rest
}
through 35 662 0296
for word in 35 0; do
    through 35 662 0296 --layout "$word"
    through 35 662 0296 "--layout=$word"
done
for word in speeddos 1 SPEEDDOS SpeedDOS; do through speeddos 747 02EB --layout "$word"; done
through speeddos 747 02EB --layout=speeddos
through speeddos 747 02EB --layout=1
for word in dolphin 2 DOLPHIN Dolphin; do through dolphin 747 02EB --layout "$word"; done
through dolphin 747 02EB --layout=dolphin
through dolphin 747 02EB --layout=2

# A size that is not the layout's: every command and a list refuse it with the same line.
wrong_size() { # BYTES LAYOUT_AS_TOLD
    line=$(refusal 1 "$(size_told "$1" "$2")")
    all_refuse "$1 bytes" 1 "$line"
    for command in "listing bad" "format bad NAME 01"; do
        case_is "$1 bytes: $command $layout"
        # shellcheck disable=SC2086 # the words of a command
        denies 1 $command
        says "$line"
    done
    case_is "$1 bytes: a list $layout"
    denies 1 run --quiet example.jobs bad
    says "line 2: $line"
    : >none
    denies 1 run --quiet none bad
    says "$line"
}
cat model.speeddos model.dolphin >much
for size in 174848 0 1000 174847 174849 175531 196607 196609 197376 300000; do
    head -c "$size" much >bad
    layout="--layout speeddos"
    wrong_size "$size" "speeddos (1)"
    layout="--layout 2"
    wrong_size "$size" "dolphin (2)"
done
for size in 196608 175531 196609; do
    head -c "$size" much >bad
    for layout in "" "--layout 0" "--layout 35"; do wrong_size "$size" "35 (0)"; done
done

# An image in the other layout of its size: the first track that has its entry elsewhere.
for pair in speeddos:dolphin:2 dolphin:speeddos:1; do
    made=${pair%%:*} asked=${pair#*:}
    cp "model.$made" bad
    layout="--layout ${asked#*:}"
    [ "$made" = speeddos ] && elsewhere="speeddos (1)" || elsewhere="dolphin (2)"
    line=$(refusal 8 "track 36, sector 0 $USED; layout $elsewhere has this entry elsewhere")
    all_refuse "a disk of $made" 8 "$line"
    case_is "a disk of $made, in a list $layout"
    printf 'store NEW other\nscratch CODE\n' >jobs
    denies 8 run --quiet --keep-going jobs bad
    printf 'line %s: '"$line"'\n' 1 2 >wanted
    same seen/err wanted "the line of each job"
    case_is "a disk of $made: listing looks only at counts $layout"
    does 0 listing bad
    [ "$(tail -n 1 seen/out)" = 0296 ] || fail "0296 free sectors, those of tracks 1 to 35"
    case_is "a disk of $made: format makes it one of the layout $layout"
    does 0 format bad CODES 01
    same bad "fresh.${asked%:*}" "the fresh disk, with no byte of the other layout's entries"
done

# A disk with both layouts' entries is accepted in both. What is stored in one leaves the other's entries alone, and they are wrong as soon as a sector of
# tracks 36 to 40 is taken.
example_disk_40 both code 0xC0
for at in 0 4 8 12 16; do patch both $(($(track18 0) + 0xAC + at)) 17 0xFF 0xFF 1; done
head -c $((254 * 662)) /dev/zero >upto35
for pair in 1:2:0xAC:speeddos 2:1:0xC0:dolphin; do
    own=${pair%%:*} rest=${pair#*:} other=${rest%%:*} rest=${rest#*:}
    at=$(($(track18 0) + ${rest%:*})) elsewhere="${rest#*:} ($own)"
    case_is "a disk that two layouts accept, used in layout $own"
    cp both disk
    for word in 1 2; do
        gives 0 check disk --layout "$word"
        gives 0 dir disk --layout "$word"
        [ "$(tail -n 1 seen/out)" = "747 BLOCKS FREE." ] || fail "747 blocks free"
    done
    gives 0 store disk UPTO35 upto35 --layout "$own"
    for word in 1 2; do gives 0 check disk --layout "$word"; done
    gives 0 store disk MORE other --layout "$own"
    gives 0 check disk --layout "$own"
    cp disk bad
    layout="--layout $other"
    all_refuse "stored in layout $own" 8 "$(refusal 8 "track 36, sector 0 $FREE; layout $elsewhere has this entry elsewhere")"
    case_is "the entries of layout $other as they were"
    cmp -s -i "$at" -n 20 disk both || fail "the entries of layout $other as they were"
    gives 0 scratch disk MORE --layout "$own"
    gives 0 scratch disk UPTO35 --layout "$own"
    same disk both "the disk as it was before"
    for word in 1 2; do gives 0 check disk --layout "$word"; done
done
case_is "in layout 35 the bytes of both are others"
head -c 174848 both >disk
gives 0 check disk
gives 0 dir disk
[ "$(tail -n 1 seen/out)" = "662 BLOCKS FREE." ] || fail "662 blocks free"
gives 0 scratch disk CODE
gives 0 store disk CODE code
head -c 174848 both | cmp -s - disk || fail "the disk as it was before"
gives 0 format disk CODES 01
same disk fresh.35 "the fresh disk"

# Layouts that are none, and options that are not as expected: 64, and nothing is done.
cp model.35 disk
words() { # COMMAND
    case $1 in
    format) echo "disk NAME 01" ;;
    check | dir | listing) echo disk ;;
    read) echo "disk CODE new" ;;
    store) echo "disk NEW other" ;;
    scratch) echo "disk CODE" ;;
    run) echo "example.jobs disk" ;;
    esac
}
no_layout() { # COMMAND TEXT
    case_is "no layout: $1 --layout '$2'"
    line="d64: '$(printf %s "$2" | tr '\t' '?')' is no layout; expected 35, speeddos or dolphin, or 0, 1 or 2"
    # shellcheck disable=SC2046 # the words of a command
    refuses 64 model.35 disk "$1" $(words "$1") --layout "$2"
    says "$line"
    # shellcheck disable=SC2046 # the words of a command
    refuses 64 model.35 disk "$1" "--layout=$2" $(words "$1")
    says "$line"
}
for text in 00 01 000 40 36 350 " 1" +1 -1 0x1 1.0 1x 12 4294967296 4294967297 18446744073709551617 speed speeddosx "speeddos " disk "$(printf '1\t')"; do
    no_layout check "$text"
done
for command in format check dir read store scratch listing run; do
    for text in "" 3 "1 "; do no_layout "$command" "$text"; done
    for twice in "--layout 0 --layout 0" "--layout 0 --layout 1" "--layout=1 --layout 35" "--layout speeddos --layout=dolphin"; do
        case_is "twice: $command $twice"
        # shellcheck disable=SC2046,SC2086 # the words of a command
        refuses 64 model.35 disk "$command" $twice $(words "$command")
        mentions "--layout is given twice; expected"
        first=${twice%% --layout*}
        # shellcheck disable=SC2046,SC2086 # the words of a command
        refuses 64 model.35 disk "$command" $first $(words "$command") ${twice#"$first "}
        mentions "--layout is given twice; expected"
    done
    case_is "no layout behind it: $command"
    # shellcheck disable=SC2046 # the words of a command
    refuses 64 model.35 disk "$command" $(words "$command") --layout
    mentions "--layout is without a layout; expected"
    case_is "no short option: $command -l"
    # shellcheck disable=SC2046 # the words of a command
    refuses 64 model.35 disk "$command" $(words "$command") -l 0
    mentions "unknown option -l"
    case_is "the help has it: $command"
    gives 0 "$command" --help
    grep -qF -- "--layout LAYOUT" seen/out || fail "--layout LAYOUT in the help"
    cp seen/out help
    gives 0 "$command" --layout dolphin --help
    same help seen/out "the same help"
done
[ ! -e new ] || fail "no file new"
case_is "the help of the tool has it"
gives 0 --help
grep -qF -- "--layout LAYOUT" seen/out || fail "--layout LAYOUT in the help"
case_is "behind -- it is an operand"
gives 64 check disk -- --layout 0
mentions "too many operands"
gives 0 store disk -- --layout other
gives 0 read disk -- --layout out
same out other "the bytes of a file of that name"
case_is "an option has no place before the command"
gives 64 --layout 1 check disk
cp model.35 disk

# A line of a list has no layout of its own.
for job in "check --layout 1" "check --layout=1" "format NEW 01 --layout 1" "scratch CODE --layout=1" "store NEW other prg --layout=1" \
    "store NEW other --layout=1" "read CODE new --layout 1" "--layout 1 check"; do
    case_is "a line with a layout: $job"
    printf 'check\n%s\n' "$job" >jobs
    refuses 64 model.35 disk run jobs disk
    stops "$(grep '^line 2: ' seen/err)"
done
finish
