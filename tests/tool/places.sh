# Sourced after lib.sh by the groups about folders that cannot be written.
chmod 755 .
example_disk disk code
cp disk model
printf 'store NEW code\nscratch CODE\n' >jobs

# A command that cannot write: 73, the file and the reason, everything as it was.
cannot_write() { # REASON FOLDER ARGUMENT..
    reason=$1 folder=$2
    shift 2
    case_is "$reason: $*"
    gives 73 "$@"
    mentions "$reason"
    mentions "$folder/"
    same model "$folder/disk" "the image as it was"
    [ "$(cat "$folder/out")" = old ] || fail "out as it was"
    no_rest "$folder"
}

# Every command that writes, on an image in a folder that takes no new file.
takes_nothing() { # REASON FOLDER
    cannot_write "$1" "$2" store "$2/disk" NEW code
    cannot_write "$1" "$2" scratch "$2/disk" CODE
    cannot_write "$1" "$2" format "$2/disk" OTHER 01
    cannot_write "$1" "$2" format "$2/new" OTHER 01
    cannot_write "$1" "$2" run jobs "$2/disk"
    cannot_write "$1" "$2" run --keep-going jobs "$2/disk"
    [ ! -e "$2/new" ] || fail "no file new"
    case_is "$1: commands that only read"
    gives 0 check "$2/disk"
    gives 0 dir "$2/disk"
    gives 0 listing "$2/disk"
    gives 0 read "$2/disk" CODE -
    same seen/out code "the bytes"
}

# The same for a file that is read from the disk into that folder, and for a job that does.
reads_nothing() { # REASON FOLDER
    cannot_write "$1" "$2" read "$2/disk" CODE "$2/out"
    cannot_write "$1" "$2" read "$2/disk" CODE "$2/new"
    echo "read CODE $2/new" >read_jobs
    cannot_write "$1" "$2" run read_jobs "$2/disk"
    [ ! -e "$2/new" ] || fail "no file new"
}
