# Sourced after lib.sh by the groups about wrong map entries: makes those of an image bad wrong, and tells the line of its refusal.
# Where the entry of track 36 stands in 18/0; the others of tracks 36 to 40 follow it.
entries=

# Where a track's entry starts in the image.
entry() { # TRACK
    if [ "$1" -le 35 ]; then echo $(($(track18 0) + 4 * $1)); else echo $(($(track18 0) + entries + 4 * ($1 - 36))); fi
}

# Turns the marks of sectors of one track of bad, and nothing else.
turn() { # TRACK SECTOR..
    track=$1
    shift
    for sector; do
        at=$(($(entry "$track") + 1 + sector / 8))
        patch bad "$at" $(($(od -An -tu1 -j "$at" -N 1 bad) ^ 1 << sector % 8))
    done
}

# Writes the count of a track of bad.
count() { # TRACK NUMBER
    patch bad "$(entry "$1")" "$2"
}

# Sets all bits past the last sector of a track of bad.
spare() { # TRACK
    if [ "$1" -le 17 ]; then sectors=21; elif [ "$1" -le 24 ]; then sectors=19; elif [ "$1" -le 30 ]; then sectors=18; else sectors=17; fi
    at=$(($(entry "$1") + 3))
    patch bad "$at" $(($(od -An -tu1 -j "$at" -N 1 bad) | 0xFF << sectors - 16 & 0xFF))
}

# The line for bad, from check alone.
checked() { # WHAT PLACE
    cp bad before
    case_is "$1 $layout"
    # shellcheck disable=SC2086 # the words of an option
    refuses 8 before bad check bad $layout
    says "$(refusal 8 "$2")"
}

FREE="is marked free but owned" USED="is marked used but owned by nobody"

# A disk in the layout on which every sector is owned: 18 directory sectors of eight files, each file but REST has one sector.
fill() { # IMAGE SECTORS_OFF_TRACK_18
    i=1
    while [ "$i" -lt 144 ]; do
        echo "store F$i /dev/null"
        i=$((i + 1))
    done >jobs
    head -c $((254 * ($2 - 143))) /dev/zero >rest
    echo "store REST rest" >>jobs
    # shellcheck disable=SC2086 # the words of an option
    gives 0 run jobs "$1" $layout
}
