# Sourced by each group of cases: runs the tool, and says what was expected and what was seen. The group's script gets the program in TOOL and an empty
# folder in WORK, where it stays. TOP is the repository.
set -eu
cd "$WORK"
group=$(basename "$0" .sh) what=start cases=0
# The words that name the layout of the image in what follows; none are layout 35.
layout=
mkdir seen

# Begins a case.
case_is() { # WHAT
    what=$1
    cases=$((cases + 1))
    rm -f seen/command seen/status seen/out seen/err
}

fail() { # EXPECTED
    echo "tool: $group, case $cases, $what"
    echo "expected: $*"
    [ ! -f seen/command ] || echo "command:  $(cat seen/command)"
    [ ! -f seen/status ] || echo "status:   $(cat seen/status)"
    [ ! -s seen/out ] || { echo "standard output:"; head -c 600 seen/out | cat -v; echo; }
    [ ! -s seen/err ] || { echo "standard error:"; head -c 2000 seen/err | cat -v; }
    exit 1
}

# Runs the tool and keeps what it printed; standard input is the caller's.
try() { # ARGUMENT..
    echo "d64 $*" | head -c 300 >seen/command
    status=0
    "$TOOL" "$@" >seen/out 2>seen/err || status=$?
    echo "$status" >seen/status
}

gives() { # STATUS ARGUMENT..
    expected_status=$1
    shift
    try "$@" </dev/null
    status_is "$expected_status"
}

status_is() { # STATUS
    [ "$status" -eq "$1" ] || fail "status $1"
}

# Standard error is this line and no more.
says() { # LINE
    printf '%s\n' "$1" >seen/wanted
    cmp -s seen/wanted seen/err || fail "on standard error: $1"
}

# A run that stops: the refusal with its line, and one more line that tells what became of the image.
stops() { # LINE
    [ "$(head -n 1 seen/err)" = "$1" ] || fail "first on standard error: $1"
    [ "$(wc -l <seen/err)" -le 2 ] || fail "no more than two lines on standard error"
    [ "$(sed -n '2s/^stopped after .*/stopped/p' seen/err)" = "$(sed -n '2s/.*/stopped/p' seen/err)" ] || fail "a second line only for where it stopped"
}

# Standard error is one line that holds this text.
tells() { # TEXT
    [ "$(wc -l <seen/err)" -eq 1 ] || fail "one line on standard error, with: $1"
    grep -qF -e "$1" seen/err || fail "on standard error: .. $1 .."
}

mentions() { # TEXT
    grep -qF -e "$1" seen/err || fail "on standard error: .. $1 .."
}

quiet_error() {
    [ ! -s seen/err ] || fail "nothing on standard error"
}

quiet_output() {
    [ ! -s seen/out ] || fail "nothing on standard output"
}

# What is done is told by one line, and never on standard output.
done_line() {
    [ "$(wc -l <seen/err)" -eq 1 ] || fail "one line on standard error that tells what is done"
    ! grep -q refused seen/err || fail "no refusal"
}

prints() { # TEXT
    printf '%s\n' "$1" >seen/wanted
    cmp -s seen/wanted seen/out || fail "on standard output: $1"
}

same() { # FILE FILE WHAT
    cmp -s "$1" "$2" || fail "$3"
}

# No temporary file is left in a folder.
no_rest() { # [FOLDER]
    [ -z "$(find "${1:-.}" -name '*.d64-new')" ] || fail "no temporary file left: $(find "${1:-.}" -name '*.d64-new')"
}

# A refusal or an error that leaves an image as it was. The image's bytes before are those of MODEL.
refuses() { # STATUS MODEL IMAGE ARGUMENT..
    wanted=$1 model=$2 image=$3
    shift 3
    gives "$wanted" "$@"
    same "$model" "$image" "$image as it was"
    quiet_output
    no_rest
}

# A damaged image bad with a file CODE, and a file other: in the layout every command that checks the image refuses it with the same line, and leaves it as it
# was.
all_refuse() { # WHAT NUMBER LINE
    cp bad before
    rm -f out
    for command in "check bad" "dir bad" "read bad CODE out" "store bad NEW other" "scratch bad CODE"; do
        case_is "$1: $command $layout"
        # shellcheck disable=SC2086 # the words of a command
        refuses "$2" before bad $command $layout
        says "$3"
        [ ! -e out ] || fail "no file out"
    done
}

# The words of a refusal's line: its number and meaning, as the manual has them.
refusal() { # NUMBER [PLACE]
    between=";"
    case $1 in
    1) meaning="wrong size" ;;
    2) meaning="bad link" ;;
    3) meaning="sector already owned" ;;
    4) meaning="kind or flags not carried" ;;
    5) meaning="name on disk breaks the rule" ;;
    6) meaning="name already on disk in an earlier slot" ;;
    7) meaning="sector count wrong" ;;
    8) meaning="map entry wrong" between=: ;;
    9) meaning="name asked for is empty, has over 16 bytes, or holds \\xA0" ;;
    10) meaning="kind asked for is not 1 (SEQ) or 2 (PRG)" ;;
    11) meaning="DOS version forbids writing" ;;
    12) meaning="name is there already" ;;
    13) meaning="name is not there" ;;
    14) meaning="directory full: no empty slot and no free sector on track 18" ;;
    15) meaning="disk full: more sectors needed than are free off track 18" ;;
    esac
    printf '%s\n' "refused, $1: $meaning${2:+$between $2}"
}

# What the line of answer 1 says of an image of so many bytes, as the manual has it; the layout is told by name and number.
size_told() { # BYTES [LAYOUT]
    number=$(echo "$1" | sed 's/\(.*[0-9]\)\([0-9]\{3\}\)$/\1,\2/')
    [ "$1" -le 196608 ] || number="more than 196,608"
    case $1 in
    174848) sizes=", the size of layout 35 (0), not of layout ${2:-35 (0)}" ;;
    196608) sizes=", the size of layouts speeddos (1) and dolphin (2), not of layout ${2:-35 (0)}" ;;
    *) sizes="; layout 35 (0) has 174,848, layouts speeddos (1) and dolphin (2) have 196,608" ;;
    esac
    echo "this image has $number bytes$sizes"
}

# Writes bytes, given as numbers, into a file.
patch() { # FILE OFFSET BYTE..
    file=$1 offset=$2
    shift 2
    for byte; do printf "\\$(printf %03o "$byte")"; done | dd of="$file" bs=1 seek="$offset" conv=notrunc 2>/dev/null
}

# Where a sector of track 17 or 18, or a slot of 18/1, starts.
track17() { echo $((86016 + 256 * $1)); }
track18() { echo $((91392 + 256 * $1)); }
slot() { echo $((91648 + 32 * $1)); }

# Document 01's example disk and the 300 bytes of its file, both made without the tool.
example_disk() { # IMAGE FILE
    cp "$TOP/crates/listing/stdin" "$1"
    { tail -c +86019 "$1" | head -c 254; tail -c +86275 "$1" | head -c 46; } >"$2"
}

# The same disk with 40 tracks: 36 to 40 are zeros, and the map has 17 free sectors for each, in entries from this byte of 18/0 on.
example_disk_40() { # IMAGE FILE ENTRIES
    example_disk "$1" "$2"
    head -c 21760 /dev/zero >>"$1"
    for at in 0 4 8 12 16; do patch "$1" $(($(track18 0) + $3 + at)) 17 0xFF 0xFF 1; done
}

# Bytes that differ from place to place and from seed to seed.
bytes() { # LENGTH SEED
    LC_ALL=C awk -v n="$1" -v s="$2" 'BEGIN { srand(s); for (i = 0; i < n; i++) printf "%c", 1 + int(rand() * 127) }'
}

# Ends a group: how many cases it had.
finish() {
    echo "$cases" >>"$COUNTS"
}
