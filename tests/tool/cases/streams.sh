# Standard input and output: - wherever it is taken, and refused where standard input would be asked twice.
. "$TOP/tests/tool/lib.sh"
example_disk disk code
cp disk model
gives 0 format fresh CODES 01

# Runs the tool with a file as standard input.
fed() { # STATUS INPUT ARGUMENT..
    expected_status=$1 input=$2
    shift 2
    try "$@" <"$input"
    status_is "$expected_status"
}

case_is "check, dir and listing of standard input"
fed 0 disk check -
[ "$(cat seen/out seen/err)" = accepted ] || fail accepted
fed 0 disk dir -
cp seen/out listed
gives 0 dir disk
same listed seen/out "the same directory"
fed 0 disk listing -
cp seen/out listed
gives 0 listing disk
same listed seen/out "the same listing"

case_is "the same through a pipe, in small pieces"
status=0
{ head -c 1000 disk; sleep 0.1; tail -c +1001 disk; } | "$TOOL" dir - >seen/out 2>seen/err || status=$?
status_is 0
gives 0 dir disk

case_is "store: the image from standard input, the new one to standard output"
fed 0 fresh store - CODE code
same seen/out model "the example disk on standard output"
done_line
same fresh fresh "the input as it was"

case_is "store: the file from standard input"
cp fresh image
fed 0 code store image CODE -
same image model "the example disk"
done_line && quiet_output
fed 0 code store image CODE2 - seq

case_is "store: the file through a pipe"
cp fresh image
status=0
{ head -c 100 code; sleep 0.1; tail -c +101 code; } | "$TOOL" store image CODE - 2>seen/err || status=$?
status_is 0
same image model "the example disk"

case_is "scratch on standard input"
fed 0 disk scratch - CODE
same seen/out fresh "the fresh disk on standard output"

case_is "run: an image that is too long is not handed on cut short"
{ cat disk; head -c 100000 /dev/zero; } >long
: >empty.jobs
fed 1 long run empty.jobs -
quiet_output
printf 'check\n' >check.jobs
fed 73 long run --keep-going check.jobs -
quiet_output
head -c 196609 long >longer
fed 73 longer run --keep-going check.jobs -
quiet_output
case_is "run: an image of another layout is handed on whole"
head -c 196608 long >forty
fed 1 forty run --quiet --keep-going check.jobs -
says "line 1: $(refusal 1 "$(size_told 196608)")"
same seen/out forty "the image as it was on standard output"
fed 1 disk run --quiet --keep-going --layout dolphin check.jobs -
says "line 1: $(refusal 1 "$(size_told 174848 "dolphin (2)")")"
same seen/out disk "the image as it was on standard output"

case_is "read to standard output, of a file and of standard input"
fed 0 disk read - CODE -
same seen/out code "the bytes on standard output"
gives 0 read disk CODE -
same seen/out code "the bytes on standard output"
done_line
fed 0 disk read - CODE out
same out code "the bytes in a file"
quiet_output

case_is "format to standard output"
try format - CODES 01 </dev/null
status_is 0
same seen/out fresh "the fresh disk on standard output"

case_is "run on standard input"
printf 'scratch CODE\nstore CODE code\nstore TWO code seq\nscratch TWO\n' >jobs
fed 0 disk run jobs -
same seen/out model "the example disk on standard output"

case_is "run with the list from standard input"
cp disk image
fed 0 jobs run - image
same image model "the example disk"
quiet_output

case_is "a job that reads to standard output, one that stores standard input"
echo 'read CODE -' >jobs
cp disk image
gives 0 run jobs image
same seen/out code "the bytes on standard output"
echo 'store IN -' >jobs
fed 0 code run jobs image
gives 0 read image IN -
same seen/out code "the bytes that were on standard input"

# Not a byte of an image on standard output where the command is refused.
case_is "refused: nothing on standard output"
for command in "store - CODE code" "scratch - NONE" "store - NEW nowhere" "store - NEW code 9" "store - NEW code usr" "read - NONE -"; do
    # shellcheck disable=SC2086 # the words of a command
    try $command <disk
    [ "$status" -ne 0 ] || fail "a refusal"
    quiet_output
done
printf 'store A code\nscratch NONE\n' >jobs
fed 13 disk run jobs -
quiet_output
stops "line 2: $(refusal 13)"
head -c 1000 disk >short
fed 1 short store - NEW code
quiet_output
says "$(refusal 1 "$(size_told 1000)")"
{ cat disk; echo; } >long
fed 1 long check -
says "$(refusal 1 "$(size_told 174849)")"

case_is "a run on standard input that changes nothing gives the image all the same"
echo check >jobs
for option in --quiet --keep-going; do
    fed 0 disk run "$option" jobs -
    same seen/out disk "the image as it was on standard output"
    fed 0 disk run "$option" /dev/null -
    same seen/out disk "the image as it was on standard output"
done

# Standard input asked for twice: 64, and the line says so.
twice() { # ARGUMENT..
    case_is "twice: $*"
    cp model disk
    try "$@" <model
    status_is 64
    mentions "standard input"
    quiet_output
    same disk model "the image as it was"
}
twice store - NAME -
twice run - -
echo 'store A -' >jobs
twice run jobs -
printf 'store A -\nstore B -\n' >jobs
twice run jobs disk
case_is "twice: the list and a job"
echo 'store A -' >jobs
fed 64 jobs run - disk
mentions "standard input"
same disk model "the image as it was"

case_is "standard output asked for twice: an image and a file"
for list in 'store TWO code\nread CODE -\n' 'read CODE -\n'; do
    printf "$list" >jobs
    fed 64 disk run jobs -
    quiet_output
done
mentions "standard output"

case_is "a file that is called -"
cp fresh ./-
gives 0 store ./- CODE code
same ./- model "the example disk"

case_is "an output that takes nothing"
for command in "dir disk" "listing disk" "check disk" "read disk CODE -" "--help" "dir --help" "--version" "store - TWO code" "format - A 01"; do
    status=0
    # shellcheck disable=SC2086 # the words of a command
    "$TOOL" $command <disk >/dev/full 2>seen/err || status=$?
    if [ "$command" = "check disk" ] && [ "$(cat seen/err)" = accepted ]; then continue; fi
    echo "d64 $command >/dev/full" >seen/command
    : >seen/out
    echo "$status" >seen/status
    status_is 73
    mentions "No space left on device"
done

case_is "a reader that goes away"
{
    status=0
    "$TOOL" read disk CODE - 2>/dev/null || status=$?
    echo "$status" >gone
} | sleep 0
case $(cat gone) in
0 | 73 | 141) ;;
*) fail "status 0, 73 or the signal, and not $(cat gone)" ;;
esac

case_is "standard output closed"
status=0
"$TOOL" read disk CODE - >&- 2>seen/err || status=$?
echo "d64 read disk CODE - >&-" >seen/command
echo "$status" >seen/status
status_is 73
status=0
"$TOOL" store disk TWO code >&- 2>&- || status=$?
gives 0 check disk
cp model disk
"$TOOL" store disk TWO code <&- >&- 2>&- || true
gives 0 check disk
finish
