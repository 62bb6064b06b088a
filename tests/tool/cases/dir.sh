# The directory as a drive lists it, to the byte.
. "$TOP/tests/tool/lib.sh"
example_disk disk code

case_is "01's example"
gives 0 dir disk
quiet_error
prints '0 "CODES           " 01 2A
2    "CODE"             PRG
662 BLOCKS FREE.'

case_is "a fresh disk"
gives 0 format fresh 'ABCDEFGHIJKLMNOP' 'zZ'
gives 0 dir fresh
prints '0 "ABCDEFGHIJKLMNOP" zZ 2A
664 BLOCKS FREE.'

case_is "all types, a locked file, blocks of one to three digits, names of 1 and 16 bytes"
head -c 2540 /dev/zero >ten
head -c 50800 /dev/zero >twohundred
gives 0 store fresh A /dev/null seq
gives 0 store fresh 'Ab !#$%&()*+,-./' ten seq
gives 0 store fresh '0123456789:;<=>?' twohundred prg
gives 0 store fresh "@[]^_'" code seq
for s in 0 2; do patch fresh $(($(slot $s) + 2)) $((0xC1 + s / 2)); done
patch fresh $(($(slot 1) + 2)) 0x83
gives 0 dir fresh
prints '0 "ABCDEFGHIJKLMNOP" zZ 2A
1    "A"                SEQ<
10   "Ab !#$%&()*+,-./" USR
200  "0123456789:;<=>?" PRG<
2    "@[]^_'"'"'"           SEQ
451 BLOCKS FREE.'

case_is "a slot that was emptied is not listed, and is used again"
gives 0 scratch fresh 'Ab !#$%&()*+,-./'
gives 0 scratch fresh A
gives 0 store fresh B /dev/null seq
gives 0 dir fresh
prints '0 "ABCDEFGHIJKLMNOP" zZ 2A
1    "B"                SEQ
200  "0123456789:;<=>?" PRG<
2    "@[]^_'"'"'"           SEQ
461 BLOCKS FREE.'

case_is "one file on the whole disk"
cp disk whole
gives 0 format whole X 00
head -c 168656 /dev/zero >all
gives 0 store whole 'ALL THERE IS' all
gives 0 dir whole
prints '0 "X               " 00 2A
664  "ALL THERE IS"     PRG
0 BLOCKS FREE.'

case_is "144 files, over all directory sectors"
i=0
while [ "$i" -lt 144 ]; do
    echo "store F$i /dev/null"
    i=$((i + 1))
done >jobs
gives 0 format whole X 00
gives 0 run jobs whole
gives 0 dir whole
{
    echo '0 "X               " 00 2A'
    i=0
    while [ "$i" -lt 144 ]; do
        printf '1    %-18s PRG\n' "\"F$i\""
        i=$((i + 1))
    done
    echo '520 BLOCKS FREE.'
} >wanted
same wanted seen/out "the directory of 144 files"
finish
