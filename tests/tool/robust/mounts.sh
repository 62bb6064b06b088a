# Full and read-only file systems, in a mount space of its own.
if [ "${IN_MOUNT_SPACE:-}" != yes ]; then
    if ! (mkdir "$WORK/probe" && unshare -m mount -t tmpfs tmpfs "$WORK/probe") 2>/dev/null; then
        echo "tool: no file system can be mounted here: full and read-only ones are tried only as errors of single system calls"
        exit 0
    fi
    IN_MOUNT_SPACE=yes unshare -m sh "$0"
    exit
fi
. "$TOP/tests/tool/lib.sh"
. "$TOP/tests/tool/places.sh"
mkdir small
mount -t tmpfs -o size=300k,mode=755 tmpfs small
cat disk >small/disk # cp would leave out the pages of zeros
echo old >small/out

takes_nothing "No space left on device" small
case_is "a file system with no room for a byte"
head -c 400000 /dev/zero >small/filling 2>/dev/null || true
takes_nothing "No space left on device" small
reads_nothing "No space left on device" small
case_is "room again"
rm small/filling
mount -o remount,size=1000k small
gives 0 read small/disk CODE small/room
same small/room code "the bytes"
rm small/room

case_is "no room for one more file"
mount -o remount,nr_inodes=3 small
takes_nothing "No space left on device" small
reads_nothing "No space left on device" small
mount -o remount,nr_inodes=100 small
case_is "a file system that is read only"
mount -o remount,ro small
takes_nothing "Read-only file system" small
reads_nothing "Read-only file system" small
mount -o remount,rw small
gives 0 scratch small/disk CODE
umount small
finish
