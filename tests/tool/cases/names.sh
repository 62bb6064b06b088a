# Names by the manual's table, in both directions, for all 256 bytes; and what is no name.
. "$TOP/tests/tool/lib.sh"
echo data >data

# How a byte is printed, by the table of the manual: this is the tests' own table.
shown() { # BYTE
    if [ "$1" -ge 65 ] && [ "$1" -le 90 ]; then
        printf "\\$(printf %03o "$1")"
    elif [ "$1" -ge 193 ] && [ "$1" -le 218 ]; then
        printf "\\$(printf %03o $(($1 - 96)))"
    elif [ "$1" -ge 32 ] && [ "$1" -le 95 ] && [ "$1" -ne 34 ] && [ "$1" -ne 92 ]; then
        printf "\\$(printf %03o "$1")"
    else
        printf '\\x%02X' "$1"
    fi
}

# All bytes but the padding, as X and the byte: stored as \xNN, printed by the table, and read by what was printed.
from_to() { # FIRST LAST
    gives 0 format disk ALL 01
    : >jobs
    : >back
    : >wanted
    byte=$1
    while [ "$byte" -le "$2" ]; do
        if [ "$byte" -ne 160 ]; then
            case_is "byte $byte"
            printf 'store X\\x%02x data\n' "$byte" >>jobs
            text=X$(shown "$byte"; echo .)
            text=${text%.}
            if [ "$byte" -eq 39 ]; then printf 'read "%s" out/%s\n' "$text" "$byte"; else printf "read '%s' out/%s\n" "$text" "$byte"; fi >>back
            printf '1    %-18s PRG\n' "\"$text\"" >>wanted
        fi
        byte=$((byte + 1))
    done
    mkdir out
    gives 0 run jobs disk
    gives 0 dir disk
    sed '1d;$d' seen/out >listed
    same wanted listed "names printed by the table"
    # On the disk the bytes themselves: X and the byte, in the listing.
    gives 0 listing disk
    sed '1d;$d' seen/out | cut -c 7-10 >on_disk
    sed 's/^store X.x\(..\) data$/58\1/' jobs | tr abcdef ABCDEF >wanted
    same wanted on_disk "the bytes on the disk"
    gives 0 run back disk
    [ "$(ls out | wc -l)" -eq "$(wc -l <back)" ] || fail "each file read by its printed name"
    for file in out/*; do cmp -s data "$file" || fail "$file read by its printed name"; done
    rm -r out
}
from_to 0 127
from_to 128 255

case_is "the same on the command line, for each character of the table"
gives 0 format disk ALL 01
characters=$(printf 'ABCDEFGHIJKLMNOPQRSTUVWXYZabcdefghijklmnopqrstuvwxyz 0123456789!"#$%%&\047()*+,-./:;<=>?@[]^_')
hex=4142434445464748494A4B4C4D4E4F505152535455565758595AC1C2C3C4C5C6C7C8C9CACBCCCDCECFD0D1D2D3D4D5D6D7D8D9DA
hex=${hex}20303132333435363738392122232425262728292A2B2C2D2E2F3A3B3C3D3E3F405B5D5E5F
rest=$characters at=1
while [ -n "$rest" ]; do
    part=$(printf %.16s "$rest")
    rest=${rest#????????????????}
    [ "$part" != "$rest" ] || rest=
    case_is "name $part"
    gives 0 format disk -- "$part" 01
    name=$(printf %s "$hex" | cut -c "$at-$((at + 31))")
    at=$((at + 32))
    gives 0 listing disk
    case $(head -c 32 seen/out) in
    "$name"*) ;;
    *) fail "the disk's name $name" ;;
    esac
    [ "${#part}" -eq 16 ] || rest=
done
[ "$at" -gt "${#hex}" ] || fail "every character of the table tried"

case_is "hexadecimal digits of either case, and a name of sixteen of them"
gives 0 format disk '\x00\xfF\xFf\xAb\xaB\x09\x0a\x0D\x22\x5c\x5C\x41\xC1\x61\x7b\xDB' '\x00\xa0'
gives 0 listing disk
[ "$(head -n 1 seen/out)" = 00FFFFABAB090A0D225C5C41C1617BDB00A0 ] || fail "00FFFFABAB090A0D225C5C41C1617BDB00A0"

# 64, and the image as it was.
cp disk model
not_text() { # NAME
    case_is "no name: $(printf %s "$1" | cat -v)"
    for command in store scratch read; do
        cp data out
        file=data
        [ "$command" = store ] || file=out
        if [ "$command" = scratch ]; then refuses 64 model disk scratch disk -- "$1"; else refuses 64 model disk "$command" disk -- "$1" "$file"; fi
        same out data "out as it was"
    done
    refuses 64 model disk format disk -- "$1" 01
}
for name in 'A{' '|' '}' '~' '`' '\' 'A\' '\x' '\x4' '\xG0' '\x4G' '\X41' '\n' '\\' '\41' '\x-1' '\x 1' '\x+1' "$(printf 'A\tB')" "$(printf 'A\nB')" \
    "$(printf '\001')" "$(printf '\177')" "$(printf '\303\204')" "$(printf '\302\243')" "$(printf '\240')" "$(printf '\377')"; do
    not_text "$name"
done

case_is "the id is two characters"
for id in "" 1 123 '\x30' '\x30\x31\x32' "$(printf '\303\204')"; do refuses 64 model disk format disk NAME "$id"; done
gives 0 format disk NAME '\x30a'
gives 0 listing disk
[ "$(head -n 1 seen/out | cut -c 33-36)" = 30C1 ] || fail "id 30 C1"
finish
