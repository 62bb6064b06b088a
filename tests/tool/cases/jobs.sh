# Job lists: what a line may look like, where a run stops, what is written.
. "$TOP/tests/tool/lib.sh"
example_disk disk code
cp disk model
bytes 1000 5 >other
gives 0 format fresh CODES 01

# Runs a list, given as printf's format, on a copy of the example disk.
listed() { # STATUS LIST [OPTION]
    printf "$2" >jobs
    cp model disk
    if [ $# -gt 2 ]; then gives "$1" run "$3" jobs disk; else gives "$1" run jobs disk; fi
    no_rest
}
unchanged() {
    same disk model "the image as it was"
}
# The image that single commands make.
like() { # COMMAND..  each command's words after the image
    cp model wanted
    for words; do
        # shellcheck disable=SC2086 # the words of a command
        set -- $words
        command=$1
        shift
        "$TOOL" "$command" wanted "$@" >/dev/null 2>&1 || fail "the single command $words"
    done
    same disk wanted "the image that the single commands make"
}

case_is "every kind of job"
listed 0 'store A other\nstore B other seq\nread A a\ncheck\nscratch CODE\nread B b\nstore CODE b seq\n'
like "store A other" "store B other seq" "scratch CODE" "store CODE other seq"
same a other "the file read by a job"
same b other "the file read by a job"
done_line && quiet_output

case_is "a format in the middle"
listed 0 'store A other\nformat NEW zz\nstore B other\n'
like "format NEW zz" "store B other"

case_is "a file that a job reads and a later one stores"
rm -f a
listed 0 'read CODE a\nscratch CODE\nstore CODE a\n'
unchanged

case_is "empty lines, blanks, tabs, comments"
listed 0 '\n  \t\n# a comment "\n  \t# another\n\t store \t A\tother  prg \t\n\n'
like "store A other prg"
case_is "a # within a line is no comment"
listed 0 'store A#B other\nstore # other\n'
like "store A#B other" "store # other"
case_is "no newline at the end"
listed 0 'store A other\nstore B other'
like "store A other" "store B other"
case_is "CRLF line ends"
listed 0 'store A other\r\n\r\n# comment\r\nstore B other seq\r\ncheck\r\n'
like "store A other" "store B other seq"
case_is "CRLF and no line end at the end"
listed 0 'store A other\r\nscratch A'
unchanged
for nothing in '' '\n' '# only this' '\r\n'; do
    case_is "a list without jobs"
    listed 0 "$nothing"
    unchanged
done

case_is "quotes: blanks belong to the word"
cp other 'a file'
listed 0 'store "A NAME" "a file"\nstore '"'B NAME'"' '"'a file'"' seq\nread "A NAME" '"'an out'"'\nscratch "A NAME"\n'
gives 0 read disk 'B NAME' out
same out other "the bytes"
same 'an out' other "the bytes"
gives 13 read disk 'A NAME' out
case_is "quotes within quotes and within words"
listed 0 'store "IT'"'"'S" other\nstore '"'"'A"B'"'"' other\nstore A" "C other\nstore "A"'"'B'"'C oth"er"\n'
for name in "IT'S" 'A"B' 'A C' ABC; do gives 0 read disk "$name" out; done
case_is "an empty word in quotes is a name"
listed 9 'store "" other\n'
stops "line 1: $(refusal 9)"
case_is "a backslash means nothing but in a name"
cp other 'back\slash'
listed 0 'store \\x41\\xC1 back\\slash\nstore "B\\x20B" other\n'
gives 0 read disk Aa out
gives 0 read disk 'B B' out
gives 0 dir disk
grep -qF '"B B"' seen/out || fail 'a file "B B"'

# A run tells how many jobs were done and what became of the image.
case_is "the lines that tell what a run did"
listed 0 'store A other\nread A a\n'
says "2 of 2 jobs done; disk is written"
listed 0 'read CODE a\n'
says "1 of 1 jobs done; disk is unchanged"
listed 13 'check\nscratch NONE\ncheck\n'
[ "$(sed -n 2p seen/err)" = "stopped after 1 of 3 jobs; disk is unchanged" ] || fail "stopped after 1 of 3 jobs; disk is unchanged"
listed 13 'check\nscratch NONE\ncheck\n' --quiet
says "line 2: $(refusal 13)"

# What is no list: 64 with the line, and nothing done, --keep-going or not.
wrong() { # LINE LIST
    for option in "" --keep-going; do
        case_is "no list $option: $2"
        rm -f out
        # shellcheck disable=SC2086 # no option is no word
        listed 64 "$2" $option
        unchanged
        mentions "line $1:"
        [ ! -e out ] || fail "no job done"
    done
}
wrong 2 'read CODE out\nfrobnicate\n'
wrong 1 'store\n'
wrong 1 'store A\n'
wrong 3 'read CODE out\n\nstore A other prg more\n'
wrong 1 'store A other what\n'
wrong 1 'scratch\n'
wrong 1 'scratch A B\n'
wrong 1 'read A\n'
wrong 2 'read CODE out\nread A b c\n'
wrong 1 'check disk\n'
wrong 1 'format NAME\n'
wrong 1 'format NAME 1\n'
wrong 1 'format NAME 123\n'
wrong 1 'dir\n'
wrong 1 'listing\n'
wrong 1 'run jobs disk\n'
wrong 1 'STORE A other\n'
wrong 1 'store {} other\n'
wrong 1 'store A\\x4 other\n'
wrong 2 'read CODE out\nstore "A other\n'
wrong 2 "read CODE out\nstore 'A other\nscratch A'\n"
wrong 1 'store A\0B other\n'
wrong 2 'check\n\0\n'
wrong 2 'check\ncheck\0\n'
wrong 2 'check\nche\rck\n'

case_is "the first refusal ends the run, with its line, and the image stays"
listed 13 'read CODE out\nstore A other\nscratch NONE\nstore B other\nread A late\n'
stops "line 3: $(refusal 13)"
unchanged
same out code "the file that was read before it"
[ ! -e late ] || fail "no job after the refusal"
case_is "the same for a file that is not there"
listed 66 '# one\nstore A other\nstore B nowhere\nstore C other\n'
[ "$(head -n 1 seen/err | cut -c 1-7)" = "line 3:" ] || fail "line 3 named"
mentions nowhere
unchanged
case_is "the same for a file that cannot be written"
listed 73 'store A other\nread CODE no/folder\n'
[ "$(head -n 1 seen/err | cut -c 1-7)" = "line 2:" ] || fail "line 2 named"
mentions no/folder
unchanged
case_is "every refusal of a job"
head -c 168657 /dev/zero >big
for pair in '9:store ABCDEFGHIJKLMNOPQ other' '10:store A other 4' '12:store CODE other' '13:read A out2' '15:store A big' '9:format "" 00'; do
    listed "${pair%%:*}" "check\n${pair#*:}\n"
    stops "line 2: $(refusal "${pair%%:*}")"
    unchanged
    [ ! -e out2 ] || fail "no file out2"
done
case_is "a damaged image"
cp model bad && patch bad "$(track17 0)" 17 0
echo check >jobs
gives 3 run jobs bad
stops "line 1: $(refusal 3 "the link is in track 17 sector 0, file in slot 0")"
printf 'format CODES 01\nstore CODE code\n' >jobs
gives 0 run jobs bad
same bad model "the example disk, formatted anew"
head -c 1000 model >bad
cp bad before
gives 1 run jobs bad
stops "line 1: $(refusal 1 "$(size_told 1000)")"
same bad before "the image as it was"

case_is "--keep-going: the others are done, and the first status is the run's"
listed 13 'scratch NONE\nstore A other\nstore A other\nstore B nowhere\nread NONE out3\nstore C code seq\nread C c\n' --keep-going
like "store A other" "store C code seq"
[ "$(grep -c '^line' seen/err)" -eq 4 ] || fail "four lines for the jobs left out"
[ "$(grep -n "^line 1: $(refusal 13)\$" seen/err | cut -d: -f1)" = 1 ] || fail "line 1 first"
[ "$(sed -n 2p seen/err)" = "line 3: $(refusal 12)" ] || fail "then line 3"
sed -n 3p seen/err | grep -q '^line 4: .*nowhere' || fail "then line 4"
[ "$(sed -n 4p seen/err)" = "line 5: $(refusal 13)" ] || fail "then line 5"
same c code "the file read after refusals"
[ ! -e out3 ] || fail "no file for a refused read"
case_is "--keep-going after the operands, and with nothing refused"
printf 'store A other\n' >jobs
cp model disk
gives 0 run jobs disk --keep-going
like "store A other"
cp model disk
gives 0 run jobs --keep-going disk
like "store A other"

case_is "--keep-going: a format that is refused ends the run, for what follows is meant for another disk"
listed 9 'store A other\nformat "A NAME THAT IS TOO LONG" 01\nstore B other\n' --keep-going
unchanged
stops "line 2: $(refusal 9)"

case_is "an empty list checks the image"
: >jobs
gives 0 run jobs disk
unchanged
head -c 1000 model >bad
gives 1 run jobs bad

case_is "a mark of UTF-8 before the first line is no part of it"
printf '\357\273\277store A other\n' >jobs
cp model disk
gives 0 run jobs disk
like "store A other"

case_is "an image that does not exist is created if the first job is format"
printf '# first\n\nformat CODES 01\nstore CODE code\n' >jobs
gives 0 run jobs new
same new model "the example disk"
printf 'store CODE code\nformat CODES 01\n' >jobs
gives 66 run jobs new2
mentions new2
[ ! -e new2 ] || fail "no file new2"
: >jobs
gives 66 run jobs new2
[ ! -e new2 ] || fail "no file new2"
case_is "and not if a job is refused"
printf 'format CODES 01\nscratch A\n' >jobs
gives 13 run jobs new2
[ ! -e new2 ] || fail "no file new2"
case_is "nor if the format itself is, whatever follows"
printf 'format "" 01\nstore A other\n' >jobs
gives 9 run jobs new2
[ ! -e new2 ] || fail "no file new2"
gives 9 run --keep-going jobs new2
[ ! -e new2 ] || fail "no file new2"
no_rest

case_is "a list that is not there, is a folder, an image that is one"
gives 66 run nowhere disk
mentions nowhere
mkdir folder
gives 66 run folder disk
mentions folder
try run jobs folder </dev/null
[ "$status" -eq 66 ] || [ "$status" -eq 73 ] || fail "status 66 or 73"
mentions folder

case_is "10,000 jobs"
awk 'BEGIN { for (i = 0; i < 3333; i++) printf "store A%d other\ncheck\nscratch A%d\n", i, i; print "check" }' >jobs
cp model disk
gives 0 run jobs disk
unchanged
case_is "a refusal in line 10,001"
echo 'scratch NONE' >>jobs
gives 13 run jobs disk
stops "line 10001: $(refusal 13)"
case_is "very long lines"
{ printf '#'; head -c 1000000 /dev/zero | tr '\0' x; echo; head -c 1000000 /dev/zero | tr '\0' ' '; echo 'store A other'; } >jobs
gives 0 run jobs disk
like "store A other"
cp model disk
{ printf 'store '; head -c 1000000 /dev/zero | tr '\0' A; echo ' other'; } >jobs
gives 9 run jobs disk
stops "line 1: $(refusal 9)"
{ printf 'store A '; head -c 1000000 /dev/zero | tr '\0' A; echo; } >jobs
gives 66 run jobs disk
unchanged
no_rest
finish
