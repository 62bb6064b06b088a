# What is shown on a terminal: the running job, and nothing of that elsewhere.
. "$TOP/tests/tool/lib.sh"
example_disk disk code
cp disk model
if ! script -qec true /dev/null >/dev/null 2>&1; then
    echo "tool: no terminal to be had (script): progress is not tried"
    exit 0
fi
printf 'store FIRST code\ncheck\nstore SECOND code\nscratch FIRST\nread SECOND out\n' >jobs
printf '#!/bin/sh\ncd "%s" && exec "%s" "$@"\n' "$PWD" "$TOOL" >on_terminal
chmod 755 on_terminal

case_is "progress on a terminal"
script -qec "./on_terminal run jobs disk" /dev/null </dev/null >shown
for job in FIRST check SECOND scratch read; do grep -q "$job" shown || { cp shown seen/out; fail "$job shown while it runs"; }; done
gives 0 check disk
cp model wanted
gives 0 run jobs wanted
same disk wanted "the same image as without a terminal"

case_is "nothing of it where standard error is no terminal"
cp model disk
gives 0 run jobs disk
done_line
! grep -q FIRST seen/err || fail "no progress"
cp model disk
script -qec "./on_terminal run jobs disk 2>said" /dev/null </dev/null >shown
! grep -q FIRST shown && ! grep -q FIRST said || fail "no progress where only standard output is a terminal"

case_is "nothing of it with --quiet"
cp model disk
script -qec "./on_terminal run --quiet jobs disk" /dev/null </dev/null >shown
[ ! -s shown ] || { cp shown seen/out; fail "nothing shown"; }

case_is "a refusal stands on a line of its own"
echo 'scratch NONE' >>jobs
cp model disk
script -qec "./on_terminal run jobs disk" /dev/null </dev/null >shown || true
tr '\r' '\n' <shown | sed 's/.*\x1b\[[0-9]*[A-Za-z]//' | grep -qx "line 6: $(refusal 13)" || { cp shown seen/out; fail "line 6: $(refusal 13)"; }
same disk model "the image as it was"
finish
