# Several tools on one image: all done, none mixed; readers see the old image or the new one; a lock that is held.
. "$TOP/tests/tool/lib.sh"
example_disk disk code
cp disk model
gives 0 format fresh CODES 01

# A lock that another process holds for longer than a command waits: this runs beside the other cases.
cp disk held
echo theirs >.held.d64-new
(flock 9 && exec sleep 60) 9>>.held.d64-new &
holder=$!
until ! flock -n .held.d64-new true; do sleep 0.05; done
(
    start=$(date +%s%N)
    status=0
    "$TOOL" store held NEW code >held.out 2>held.err || status=$?
    echo "$status $((($(date +%s%N) - start) / 100000000))" >held.end
) &
waiter=$!
trap 'kill "$holder" "$waiter" 2>/dev/null || true' EXIT

# Two users who share a group, and a folder and an image that it may write. A temporary file that another user left, and that cannot be opened, is as a lock
# that is held; this too runs beside the other cases.
as_user() { # USER ARGUMENT..
    user=$1
    shift
    timeout 60 setpriv --reuid="$user" --regid="$user" --groups=12345 "$TOOL" "$@"
}
users=no
if [ "$(id -u)" -eq 0 ] && setpriv --reuid=65533 --regid=65533 --groups=12345 true 2>/dev/null; then
    users=yes
    mkdir shared
    cp model shared/disk
    cp model shared/left
    echo theirs >shared/.left.d64-new
    mkfifo shared/pipe
    chgrp -R 12345 shared
    chmod 2775 shared
    chmod 664 shared/disk shared/left shared/pipe
    chmod 600 shared/.left.d64-new
    (status=0; as_user 65534 store shared/left NEW code 2>left.err || status=$?; echo "$status" >left.end) &
    left=$!
fi

# Starts commands at the same time, and fails unless all are done.
at_once() { # COMMAND..
    i=0
    processes=
    for words; do
        i=$((i + 1))
        # shellcheck disable=SC2086 # the words of a command
        (status=0; "$TOOL" $words >"said.$i" 2>&1 || status=$?; echo "$status" >"ended.$i") &
        processes="$processes $!"
    done
    # shellcheck disable=SC2086 # the numbers of the processes
    wait $processes
    for n in $(seq "$i"); do
        cp "said.$n" seen/err
        [ "$(cat "ended.$n")" -eq 0 ] || fail "status 0 of command $n of $i at the same time, and not $(cat "ended.$n")"
    done
    no_temporary disk
}
no_temporary() { # IMAGE
    [ ! -e ".$1.d64-new" ] || fail "no temporary file of $1 left"
}

for round in 1 2 3 4 5 6 7 8; do
    case_is "two stores at the same time, round $round"
    cp fresh disk
    at_once "store disk A code" "store disk B code"
    case_is "eight commands at the same time, round $round"
    cp model disk
    at_once "store disk A code" "store disk B code" "store disk C code seq" "store disk D code" "scratch disk CODE" "store disk E code" "store disk F code prg" "store disk G code"
    gives 0 dir disk
    [ "$(wc -l <seen/out)" -eq 9 ] || fail "seven files"
    for name in A B C D E F G; do
        gives 0 read disk "$name" -
        same seen/out code "the bytes of $name"
    done
    gives 13 read disk CODE -
done

case_is "several runs and several new images at the same time"
for name in A B C D; do printf 'store %s1 code\nstore %s2 code\nread CODE out\nscratch %s1\n' "$name" "$name" "$name" >"jobs.$name"; done
cp model disk
rm -f out
at_once "run jobs.A disk" "run jobs.B disk" "run jobs.C disk" "run jobs.D disk"
gives 0 dir disk
[ "$(wc -l <seen/out)" -eq 7 ] || fail "five files"
same out code "one whole file of four reads"
at_once "format new CODES 01" "format new CODES 01" "format new CODES 01"
same new fresh "a fresh disk"

case_is "readers while others write: an accepted image each time"
cp model disk
(
    i=0
    while [ "$i" -lt 60 ]; do
        "$TOOL" store disk "N$i" code --quiet && "$TOOL" scratch disk "N$i" --quiet || exit 1
        i=$((i + 1))
    done
) &
writer=$!
looks=0
while kill -0 "$writer" 2>/dev/null; do
    gives 0 check disk
    gives 0 read disk CODE -
    same seen/out code "the bytes"
    looks=$((looks + 2))
done
wait "$writer" || fail "every store and scratch done"
same disk model "the image as it was"
[ "$looks" -ge 20 ] || fail "at least twenty looks, and not $looks"

if [ "$users" = yes ]; then
    case_is "two users at the same time"
    (status=0; as_user 65533 store shared/disk A shared/pipe >/dev/null 2>&1 || status=$?; echo "$status" >first.end) &
    first=$!
    sleep 0.3
    (status=0; as_user 65534 store shared/disk B code 2>second.err || status=$?; echo "$status" >second.end) &
    second=$!
    sleep 0.3
    cat code >shared/pipe
    wait "$first" "$second"
    cp second.err seen/err
    [ "$(cat first.end)" -eq 0 ] && [ "$(cat second.end)" -eq 0 ] || fail "both done, one after the other, and not $(cat first.end) and $(cat second.end)"
    gives 0 dir shared/disk
    [ "$(wc -l <seen/out)" -eq 5 ] || fail "three files"
    [ ! -e shared/.disk.d64-new ] || fail "no temporary file left"
fi

case_is "lines of several commands in one log stay whole"
processes=
for i in $(seq 40); do
    "$TOOL" read model NONE out 2>>log &
    processes="$processes $!"
done
for process in $processes; do wait "$process" || true; done
[ "$(sort log | uniq -c | tr -s ' ')" = " 40 $(refusal 13)" ] || { cp log seen/err; fail "forty lines: $(refusal 13)"; }

case_is "a temporary file that somebody removes, and a second command that makes it anew"
cp model swept
mkfifo pipe1 pipe2
(status=0; timeout 60 "$TOOL" store swept A pipe1 >/dev/null 2>&1 || status=$?; echo "$status" >first.end) &
first=$!
until [ -e .swept.d64-new ]; do sleep 0.05; done
sleep 0.2
rm .swept.d64-new
(status=0; timeout 60 "$TOOL" store swept B pipe2 >/dev/null 2>&1 || status=$?; echo "$status" >second.end) &
second=$!
until [ -e .swept.d64-new ]; do sleep 0.05; done
sleep 0.2
cat code >pipe1
wait "$first"
[ "$(cat first.end)" -gt 63 ] || fail "a status above 63 of the command that lost its file, and not $(cat first.end)"
same swept model "the image as it was"
cat code >pipe2
wait "$second"
[ "$(cat second.end)" -eq 0 ] || fail "the second command done, and not $(cat second.end)"
gives 0 read swept B -
same seen/out code "the bytes of B"
no_temporary swept

case_is "a lock that is given back is waited for"
cp disk soon
(flock 9 && exec sleep 1) 9>>.soon.d64-new &
until ! flock -n .soon.d64-new true; do sleep 0.05; done
gives 0 scratch soon CODE
same soon fresh "a fresh disk"
no_temporary soon

case_is "readers do not wait for a lock"
status=0
timeout 5 "$TOOL" check held >seen/out 2>&1 || status=$?
status_is 0
case_is "SIGTERM ends a wait, and the holder's file stays"
"$TOOL" scratch held CODE >/dev/null 2>&1 &
late=$!
sleep 0.5
kill "$late"
status=0
wait "$late" 2>/dev/null || status=$?
[ "$status" -ge 64 ] || fail "an end by the signal, and not status $status"
[ "$(cat .held.d64-new)" = theirs ] || fail "the holder's file as it was"

case_is "a lock that is held: ten seconds, then 75, and the image as it was"
wait "$waiter"
cp held.err seen/err
cp held.out seen/out
read -r status tenths <held.end
echo "d64 store held NEW code" >seen/command
echo "$status" >seen/status
status_is 75
tells held
quiet_output
[ "$tenths" -ge 95 ] && [ "$tenths" -le 150 ] || fail "a wait of ten seconds, and not $tenths tenths"
same held model "the image as it was"
[ "$(cat .held.d64-new)" = theirs ] || fail "the holder's file as it was"
kill "$holder"
wait "$holder" 2>/dev/null || true
if [ "$users" = yes ]; then
    case_is "another user's temporary file that cannot be opened"
    wait "$left"
    cp left.err seen/err
    [ "$(cat left.end)" -eq 75 ] || fail "status 75, and not $(cat left.end)"
    mentions shared/
    same shared/left model "the image as it was"
    [ "$(cat shared/.left.d64-new)" = theirs ] || fail "the other's file as it was"
    rm shared/.left.d64-new
fi
case_is "the holder is gone"
gives 0 scratch held CODE
same held fresh "a fresh disk"
no_rest
finish
