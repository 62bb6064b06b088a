# --help and --version, bad usage that says what was expected, --quiet, --, options in every place.
. "$TOP/tests/tool/lib.sh"
example_disk disk code
cp disk model
echo check >jobs
commands="format check dir read store scratch listing run"

# What each command expects, as the manual's synopsis has it.
operands() { # COMMAND
    case $1 in
    format) echo "IMAGE NAME ID" ;;
    check | dir | listing) echo "IMAGE" ;;
    read) echo "IMAGE NAME FILE" ;;
    store) echo "IMAGE NAME FILE [TYPE]" ;;
    scratch) echo "IMAGE NAME" ;;
    run) echo "[--keep-going] JOBS IMAGE" ;;
    esac
}

case_is "--help of the tool names every command"
gives 0 --help
quiet_error
for command in $commands; do grep -q "$command" seen/out || fail "$command in the help"; done
case_is "--version"
gives 0 --version
quiet_error
[ "$(wc -l <seen/out)" -ge 1 ] || fail "a version"

for command in $commands; do
    case_is "$command --help"
    gives 0 "$command" --help
    quiet_error
    grep -qF "d64 $command $(operands "$command")" seen/out || fail "d64 $command $(operands "$command")"
    [ "$(wc -l <seen/out)" -ge 2 ] || fail "what the command does, too"
    cp seen/out help
    # shellcheck disable=SC2046 # the words of the operands
    gives 0 "$command" $(operands "$command" | tr -d '[]') --help
    same help seen/out "the same help after operands"
    [ ! -e IMAGE ] || fail "no file IMAGE"
done

case_is "short options"
for command in $commands; do
    gives 0 "$command" --help
    cp seen/out help
    gives 0 "$command" -h
    same help seen/out "the same help"
done
gives 0 check -q disk
quiet_error && quiet_output
printf 'scratch NONE\nscratch CODE\n' >jobs2
cp disk copy
gives 13 run -k -q jobs2 copy
says "line 1: $(refusal 13)"
gives 13 scratch copy CODE
cp disk copy
gives 13 run -qk jobs2 copy
gives 13 scratch copy CODE

case_is "options after operands, whatever the environment says"
cp disk copy
POSIXLY_CORRECT=1
export POSIXLY_CORRECT
gives 0 scratch copy CODE --quiet
unset POSIXLY_CORRECT
quiet_error

# Bad usage: 64, what was expected, nothing done.
bad() { # COMMAND ARGUMENT..
    case_is "bad usage: $*"
    refuses 64 model disk "$@"
    mentions "$(operands "$1")"
    mentions expected
}
for command in $commands; do
    bad "$command"
    bad "$command" --frob disk NAME code
    bad "$command" -x disk
    bad "$command" disk A B C D E
done
bad format disk
bad format disk NAME
bad format disk NAME 01 more
bad check disk disk
bad dir disk disk
bad listing disk disk
bad read disk CODE
bad read disk
bad read disk CODE out more
bad store disk
bad store disk NEW
bad store disk NEW code prg more
bad scratch disk
bad scratch disk CODE more
bad run jobs
bad run jobs disk more
bad store disk NEW code --keep-going
case_is "a type that is none"
for type in "" foo prgs 2x x2 '2 ' +2 ' 2'; do
    refuses 64 model disk store disk NEW code "$type"
    mentions expected
done
case_is "no command, and one that is none"
gives 64
for command in $commands; do mentions "d64 $command $(operands "$command")"; done
quiet_output
for command in frobnicate "" stor stores DIR -x --frob; do
    gives 64 "$command" disk
    mentions "'$command'"
    mentions "d64 store $(operands store)"
    quiet_output
done

case_is "--quiet: no line for what is done, in every place"
gives 0 format --quiet new CODES 01
quiet_error && quiet_output
gives 0 store new --quiet CODE code
quiet_error && quiet_output
same new model "the example disk"
gives 0 read new CODE out --quiet
quiet_error && quiet_output
same out code "the bytes"
gives 0 run --quiet jobs new
quiet_error && quiet_output
gives 0 run --keep-going --quiet jobs new
quiet_error && quiet_output
gives 0 scratch --quiet new CODE
quiet_error && quiet_output
gives 0 check new --quiet
quiet_error && quiet_output
gives 0 dir --quiet disk
[ "$(wc -l <seen/out)" -eq 3 ] || fail "the directory all the same"
gives 0 listing disk --quiet
[ "$(wc -l <seen/out)" -eq 3 ] || fail "the listing all the same"
case_is "--quiet: refusals and errors all the same"
gives 13 scratch --quiet disk NONE
says "$(refusal 13)"
gives 66 check --quiet nowhere
mentions nowhere
gives 64 store --quiet disk NEW
mentions expected
printf 'scratch NONE\nstore A code\n' >jobs2
cp disk copy
gives 13 run --quiet --keep-going jobs2 copy
says "line 1: $(refusal 13)"

case_is "-- and names that begin with -"
cp disk copy
cp code ./-code
gives 0 store copy -- -NAME -code
gives 0 store -- copy --help code
gives 0 store copy --quiet -- -- code
gives 0 read copy -- -NAME out
same out code "the bytes"
gives 0 dir copy
for name in -NAME --; do grep -qF "\"$name\"" seen/out || fail "$name in the directory"; done
grep -qF '"--help"' seen/out || fail "--help in the directory, with shifted letters"
gives 0 scratch copy -- -NAME
gives 64 scratch copy -NAME
mentions expected
gives 0 format -- copy -NAME -1
gives 0 run -- jobs copy
printf 'store -A code\nstore --quiet code\nscratch -A\n' >jobs2
gives 0 run jobs2 copy
gives 0 read copy -- --quiet out

case_is "files that cannot be read: 66, their name and why"
for command in "check nowhere" "dir nowhere" "listing nowhere" "read nowhere A out" "store nowhere A code" "scratch nowhere A" "run jobs nowhere" \
    "store disk A nowhere" "run nowhere disk" "check nowhere/disk"; do
    # shellcheck disable=SC2086 # the words of a command
    refuses 66 model disk $command
    tells nowhere
    mentions "No such file or directory"
done
[ ! -e nowhere ] && [ ! -e .nowhere.d64-new ] || fail "nothing created"
case_is "files that cannot be written: 73, their name and why"
refuses 73 model disk read disk CODE nowhere/out
tells nowhere/out
mentions "No such file or directory"
gives 73 format nowhere/disk A 01
tells nowhere/disk
no_rest
finish
