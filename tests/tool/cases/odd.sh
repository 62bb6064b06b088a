# Folders, devices, pipes, links and one file in two roles, as image and as file.
. "$TOP/tests/tool/lib.sh"
example_disk disk code
cp disk model
mkdir folder

case_is "a folder as an image or a file"
for command in check dir listing; do
    gives 66 "$command" folder
    tells folder
done
refuses 66 model disk store disk NEW folder
tells folder
refuses 66 model disk store disk NEW folder/
refuses 73 model disk read disk CODE folder
tells folder
for command in "store folder NEW code" "scratch folder CODE" "format folder A 01"; do
    # shellcheck disable=SC2086 # the words of a command
    try $command </dev/null
    [ "$status" -eq 66 ] || [ "$status" -eq 73 ] || fail "status 66 or 73"
    tells folder
done
[ -z "$(ls -A folder)" ] || fail "an empty folder"
no_rest
case_is "an empty name of a file"
for command in check dir; do
    gives 66 "$command" ""
done
refuses 66 model disk store disk NEW ""
refuses 73 model disk read disk CODE ""

case_is "endless files: 15 or 1, at once and without filling memory"
# The sanitizers take more room for themselves than this limit gives.
(
    [ -n "${SANITIZED:-}" ] || ulimit -v 400000
    status=0
    timeout 20 "$TOOL" store disk ZERO /dev/zero >seen/out 2>seen/err || status=$?
    echo "$status" >seen/status
)
echo "d64 store disk ZERO /dev/zero" >seen/command
status=$(cat seen/status)
status_is 15
says "$(refusal 15)"
same disk model "the image as it was"
gives 1 check /dev/zero
says "$(refusal 1 "$(size_told 1000000)")"
echo 'store ZERO /dev/zero' >jobs
gives 15 run jobs disk
stops "line 1: $(refusal 15)"
case_is "an endless list"
status=0
yes check | timeout 60 "$TOOL" run --quiet - disk >seen/out 2>seen/err & endless=$!
sleep 0.2
kill "$endless" 2>/dev/null || true
wait "$endless" 2>/dev/null || true
same disk model "the image as it was"
gives 64 run /dev/zero disk
says "d64: /dev/zero is too long; a job list has less than 64 MiB"

case_is "/dev/null as a file to store, and as an image"
gives 0 store disk NOTHING /dev/null
gives 0 read disk NOTHING -
quiet_output
gives 1 check /dev/null
says "$(refusal 1 "$(size_told 0)")"
cp model disk

# The image as the file: under one name, through a link, by another path.
ln -s disk symbolic
ln disk hard
one_file() { # STATUS ARGUMENT..
    case_is "one file in two roles: $*"
    refuses "$@"
}
# An image does not fit on a disk; whichever reason is given.
never_stored() { # ARGUMENT..
    case_is "one file in two roles: $*"
    try "$@" </dev/null
    [ "$status" -eq 64 ] || [ "$status" -eq 15 ] || fail "status 64 or 15"
    same disk model "the image as it was"
    no_rest
}
for file in disk ./disk symbolic hard folder/../disk; do
    one_file 64 model disk read disk CODE "$file"
    never_stored store disk NEW "$file"
    one_file 64 model disk read "$file" CODE disk
    echo "read CODE $file" >jobs
    one_file 64 model disk run jobs disk
    echo "store NEW $file" >jobs
    never_stored run jobs disk
done
rm hard
printf 'check\n' >jobs
cp jobs jobs.before
case_is "the list as the image"
try run jobs jobs </dev/null
[ "$status" -ne 0 ] || fail "a refusal"
same jobs jobs.before "the list as it was"
case_is "the list as a job's file to write"
printf 'read CODE jobs\n' >jobs
cp jobs jobs.before
try run jobs disk </dev/null
[ "$status" -eq 0 ] || [ "$status" -eq 64 ] || fail "status 0 or 64"

case_is "a symbolic link stays, and what it leads to is replaced"
mkdir far
cp model far/real
ln -s far/real link
ln -s link second
gives 0 scratch second CODE
[ -L second ] && [ -L link ] && [ ! -L far/real ] || fail "links as they were"
gives 0 format fresh CODES 01
same far/real fresh "the file the link leads to replaced"
echo old >far/out
ln -s far/out outlink
gives 0 read disk CODE outlink
[ -L outlink ] || fail "the link"
same far/out code "the bytes"
no_rest
case_is "a link that leads nowhere, and one to itself"
ln -s far/created dangling
try format dangling CODES 01 </dev/null
if [ "$status" -eq 0 ]; then
    [ -L dangling ] || fail "the link"
    same far/created fresh "a fresh disk where the link leads"
else
    status_is 73
fi
ln -s loop loop
gives 66 check loop
try format loop A 01 </dev/null
[ "$status" -eq 66 ] || [ "$status" -eq 73 ] || fail "status 66 or 73"
[ -L loop ] || fail "the link"
no_rest

case_is "a hard link keeps the old bytes"
cp model one
ln one two
gives 0 scratch one CODE
same one fresh "the new bytes"
same two model "the old bytes in the other name"

case_is "pipes as FILE"
mkfifo pipe
cat pipe >through &
gives 0 read disk CODE pipe
wait
same through code "the bytes through a pipe"
[ -p pipe ] || fail "still a pipe"
cat code >pipe &
cp fresh image
gives 0 store image CODE pipe
wait
same image model "the example disk"
case_is "a pipe as IMAGE that is only read"
cat disk >pipe &
gives 0 check pipe
wait
[ -p pipe ] || fail "still a pipe"
no_rest

case_is "names of 255 bytes"
long=$(printf '%0255d' 0)
cp model "$long"
gives 0 check "$long"
try scratch "$long" CODE </dev/null
if [ "$status" -eq 0 ]; then
    same "$long" fresh "a fresh disk"
else
    status_is 73
    same "$long" model "the image as it was"
    mentions "File name too long"
fi
case_is "a folder as temporary file"
mkdir .image.d64-new
cp model image
try scratch image CODE </dev/null
[ "$status" -ge 64 ] || fail "a status above 63"
same image model "the image as it was"
tells image
case_is "a temporary file left behind is used up, a long one too"
rmdir .image.d64-new
head -c 400000 /dev/zero >.image.d64-new
gives 0 scratch image CODE
same image fresh "a fresh disk"
no_rest
head -c 10 /dev/zero >.image.d64-new
gives 12 store model CODE code
try scratch image CODE </dev/null
status_is 13
gives 0 store image CODE code
same image model "the example disk"
no_rest
case_is "a temporary file that is a link leads nowhere"
echo precious >precious
ln -s precious .image.d64-new
try scratch image CODE </dev/null
[ "$(cat precious)" = precious ] || fail "the file behind the link as it was"
[ ! -L image ] || fail "the image is no link"
[ "$status" -ne 0 ] || same image fresh "a fresh disk"
[ "$status" -eq 0 ] || same image model "the image as it was"

case_is "the temporary file's name as a job's file: the image is not lost"
rm -f .image.d64-new
cp model image
for list in 'store A code\nread A .image.d64-new\n' 'read CODE .image.d64-new\nscratch CODE\n'; do
    printf "$list" >jobs
    for option in --quiet --keep-going; do
        gives 64 run "$option" jobs image
        mentions "line"
        same image model "the image as it was"
    done
done
case_is "an image that has the name of a temporary file is not lost"
cp model .out.d64-new
rm -f out
for command in "read .out.d64-new CODE out" "read disk CODE .out.d64-new" "store .out.d64-new A code" "scratch .out.d64-new CODE" \
    "format .out.d64-new A 01" "run jobs .out.d64-new"; do
    # shellcheck disable=SC2086 # the words of a command
    gives 64 $command
    same .out.d64-new model "the image as it was"
done
ln -s .out.d64-new good_name
gives 64 scratch good_name CODE
same .out.d64-new model "the image as it was"
case_is "a file that a job would put in the place of an image that is yet to be made"
rm -f .out.d64-new good_name new2
printf 'format X 01\nstore A code\nread A ./new2\n' >jobs
gives 64 run jobs new2
[ ! -e new2 ] || fail "no file new2"
no_rest
finish
