# Folders and files that an unprivileged user may not write or read, and a limit to a file's length.
. "$TOP/tests/tool/lib.sh"
. "$TOP/tests/tool/places.sh"

case_is "a limit to a file's length"
echo old >out
(
    ulimit -f 100
    for command in "store disk NEW code" "format disk OTHER 01" "format new OTHER 01" "run jobs disk"; do
        # shellcheck disable=SC2086 # the words of a command
        refuses 73 model disk $command
        mentions "File too large"
        [ ! -e new ] || fail "no file new"
    done
    printf 'scratch NONE\nstore NEW code\n' >partly
    refuses 73 model disk run --keep-going partly disk
)

# What is forbidden binds an unprivileged user alone.
if [ "$(id -u)" -eq 0 ]; then
    if ! setpriv --reuid=65534 --regid=65534 --clear-groups true 2>/dev/null; then
        echo "tool: no unprivileged user to run as: forbidden folders are not tried"
        finish
        exit 0
    fi
    printf '#!/bin/sh\nexec setpriv --reuid=65534 --regid=65534 --clear-groups "%s" "$@"\n' "$TOOL" >unprivileged
    chmod 755 unprivileged
    TOOL=$PWD/unprivileged
fi
mkdir forbidden own
cp disk forbidden
echo old >forbidden/out
chmod 666 forbidden/*
chmod 555 forbidden
takes_nothing "Permission denied" forbidden
reads_nothing "Permission denied" forbidden

case_is "an image that may be read only: the folder alone does not make it writable"
cp disk own
cp own/disk own/model
echo old >own/out
[ "$(id -u)" -ne 0 ] || chown -R 65534:65534 own
chmod 444 own/disk own/out
for command in "store own/disk NEW code" "scratch own/disk CODE" "format own/disk OTHER 01" "run jobs own/disk" "read disk CODE own/out"; do
    case_is "mode 0444: $command"
    # shellcheck disable=SC2086 # the words of a command
    refuses 73 model own/disk $command
    mentions "Permission denied"
    [ "$(stat -c %a own/disk)" = 444 ] || fail "mode 0444"
    [ "$(cat own/out)" = old ] || fail "out as it was"
done
gives 0 check own/disk

case_is "files that may not be read"
chmod 200 own/disk
for command in "check own/disk" "dir own/disk" "listing own/disk" "read own/disk CODE own/new" "store own/disk NEW code" "scratch own/disk CODE" "run jobs own/disk"; do
    # shellcheck disable=SC2086 # the words of a command
    gives 66 $command
    tells own/disk
    mentions "Permission denied"
done
no_rest own
chmod 644 own/disk
cp code own/secret
chmod 000 own/secret
refuses 66 model own/disk store own/disk NEW own/secret
tells own/secret

case_is "a group that the user is not in cannot be kept"
if [ "$(id -u)" -eq 0 ]; then
    chown 65534:12345 own/disk
    refuses 73 model own/disk store own/disk NEW code
    tells own/disk
    chown 65534:65534 own/disk
fi
case_is "an owner that cannot be kept is not"
if [ "$(id -u)" -eq 0 ]; then
    cp disk own/roots
    chgrp 65534 own/roots
    chmod 666 own/roots
    gives 0 store own/roots NEW code
    [ "$(stat -c %u:%g:%a own/roots)" = 65534:65534:666 ] || fail "65534:65534:666, and not $(stat -c %u:%g:%a own/roots)"
fi
case_is "an unprivileged user in an own folder"
gives 0 store own/disk NEW code
gives 0 check own/disk
no_rest own
finish
