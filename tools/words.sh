# For tools/check-over, tools/check-times and .ci/tests, which source it at the top of the repository: what the kit's `rattle` is called with.
# shellcheck shell=sh disable=SC2034,SC2046,SC2086
kit=$(dirname "$(dirname "$(realpath "$(command -v rt)")")")
[ -x "$kit/bin/rattle" ] || kit=$(dirname "$(rt doc)")

# The crates and the kit's libraries that crates.txt has a crate rely on.
relied_on() { # CRATE
    sed -n "s/^$1\( [^:]*\)\{0,1\}: *//p" crates.txt
}

# All below a crate, each once.
below() { # CRATE
    reached='' todo=$(relied_on "$1")
    while [ -n "$(echo $todo)" ]; do
        next=''
        for name in $todo; do
            case " $reached " in *" $name "*) continue ;; esac
            reached="$reached $name" next="$next $(relied_on "$name")"
        done
        todo=$next
    done
    echo $reached
}

# Has the kit check or build a crate over the libraries given by the words.
kit_does() { # check|build CRATE WORDS..
    verb=$1 crate=$2 root=src/lib.rt
    shift 2
    [ -f "crates/$crate/$root" ] || root=src/main.rt
    set -- "$@" --extern "std=$kit/rlibs/std.rlib" -L "dependency=$kit/rlibs" --links "$crate=" --antt-project "$kit/rattle/logic/antt-project.json" \
        --logic-built "$kit/logic_built"
    ! grep -q "^$crate staticlib" crates.txt || set -- "$@" --crate-type staticlib
    (cd "crates/$crate" && exec "$kit/bin/rattle" "$verb" --crate-name "$crate" "$root" "$@")
}
