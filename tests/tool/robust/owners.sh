# Mode, group and owner of a replaced file, the mode of a new one, and devices that stay devices.
. "$TOP/tests/tool/lib.sh"
example_disk disk code
cp disk model
printf 'scratch CODE\nstore CODE code\nstore NEW code\n' >jobs

# Runs each command that replaces a file, and looks at what stat says of the file.
kept() { # WHAT STAT_FORMAT EXPECTED SETTING..
    expected=$3 format=$2 name=$1
    shift 3
    for command in "store disk NEW code" "scratch disk CODE" "format disk OTHER 01" "run jobs disk" "read model CODE disk"; do
        case_is "$name kept: $command"
        rm -f disk
        cp model disk
        "$@" disk
        # shellcheck disable=SC2086 # the words of a command
        gives 0 $command
        [ "$(stat -c "$format" disk)" = "$expected" ] || fail "$name $expected, and not $(stat -c "$format" disk)"
        ! cmp -s disk model || fail "a changed file"
    done
}
for mode in 640 600 666 644 700 604; do kept "mode $mode" %a "$mode" chmod "$mode"; done
if [ "$(id -u)" -eq 0 ]; then
    kept "mode 444, for root" %a 444 chmod 444
    if chown 4321:12345 disk 2>/dev/null; then
        kept group %g 12345 chgrp 12345
        kept owner %u:%g:%a 4321:12345:644 chown 4321:12345
    fi
fi

for pair in 022:644 077:600 002:664; do
    case_is "a new file's mode with umask ${pair%:*}"
    rm -f new out
    (umask "${pair%:*}" && gives 0 format new NEW 01 && gives 0 read model CODE out)
    [ "$(stat -c %a new)" = "${pair#*:}" ] || fail "mode ${pair#*:} of an image, and not $(stat -c %a new)"
    [ "$(stat -c %a out)" = "${pair#*:}" ] || fail "mode ${pair#*:} of a file, and not $(stat -c %a out)"
done
no_rest

# Devices of this folder: those in /dev are not put at risk.
if mknod null c 1 3 2>/dev/null && mknod full c 1 7 2>/dev/null && [ -c null ] && : 2>/dev/null >null; then
    case_is "devices as FILE"
    gives 0 read model CODE null
    [ -c null ] || fail "still a device"
    refuses 73 model model read model CODE full
    [ -c full ] || fail "still a device"
    mentions "No space left on device"
    tells full
    echo 'read CODE full' >jobs
    gives 73 run jobs model
    [ -c full ] || fail "still a device"
    case_is "a device as IMAGE"
    for command in "store null NEW code" "scratch null CODE" "run jobs null"; do
        # shellcheck disable=SC2086 # the words of a command
        try $command </dev/null
        [ "$status" -ne 0 ] || fail "a refusal"
        [ -c null ] || fail "still a device"
    done
    try format null NEW 01 </dev/null
    [ -c null ] || fail "still a device"
    no_rest
else
    echo "tool: no devices can be made here: none is tried as FILE"
fi
finish
