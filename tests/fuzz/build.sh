# For tests/fuzz/run and tests/fuzz/wrong-libraries, which source it in this folder: finds or installs libFuzzer and builds the harness. They set
# 'archive' and 'work', a folder for this run. It sets 'built', where the programs are, and fills work/seeds; without libFuzzer it ends the run.
# shellcheck shell=sh
CARGO_TARGET_DIR=${CARGO_TARGET_DIR:-$PWD/target}
ASAN_OPTIONS=quarantine_size_mb=16:detect_leaks=0
export CARGO_TARGET_DIR ASAN_OPTIONS
built=$CARGO_TARGET_DIR/fuzz
mkdir -p "$built"

# The name of a clang that links libFuzzer, or nothing.
fuzzing_clang() {
    echo 'int LLVMFuzzerTestOneInput(const unsigned char *b, unsigned long n) { return b == 0 && n == 1; }' >"$work/probe.c"
    for name in clang-14 clang; do
        if "$name" -fsanitize=fuzzer,address,undefined -o "$work/probe" "$work/probe.c" 2>/dev/null && "$work/probe" -runs=1 2>/dev/null; then
            echo "$name"
            return
        fi
    done
}

# At most some minutes where there is no network.
packages() { # COMMAND WORDS..
    DEBIAN_FRONTEND=noninteractive timeout 300 apt-get -qq -o Acquire::Retries=0 -o Acquire::http::Timeout=20 -o DPkg::Lock::Timeout=60 "$@" >"$work/apt" 2>&1
}

install_libfuzzer() {
    [ "$(id -u)" -eq 0 ] && command -v apt-get >/dev/null || return 0
    packages install -y --no-install-recommends clang-14 libclang-rt-14-dev ||
        { packages update && packages install -y --no-install-recommends clang-14 libclang-rt-14-dev; } || return 0
}

clang=$(fuzzing_clang)
[ -n "$clang" ] || { install_libfuzzer; clang=$(fuzzing_clang); }
[ -n "$clang" ] || { echo "fuzz: skipped, libFuzzer is not installed and cannot be installed"; exit 0; }

# The oracle has the counters that guide the fuzzer; the archive comes out of its own compiler and has none. A target is named so that the passes are
# not for the programs that cargo itself runs.
host=$(rustc -vV | sed -n 's/^host: //p')
oracle=$CARGO_TARGET_DIR/$host/release/liboracle.a
build_oracle() { # FEATURES..
    passes="-Cpasses=sancov-module -Cllvm-args=-sanitizer-coverage-level=4 -Cllvm-args=-sanitizer-coverage-inline-8bit-counters"
    passes="$passes -Cllvm-args=-sanitizer-coverage-pc-table -Cllvm-args=-sanitizer-coverage-trace-compares"
    RUSTFLAGS=$passes cargo build --release --offline --locked --quiet --target "$host" --manifest-path oracle/Cargo.toml "$@"
}

compile() { # FILE FLAGS..
    file=$1
    shift
    "$clang" -std=c11 -Wall -Wextra -Werror -g -I../../include "$@" -c -o "$built/$file.o" "c/$file.c"
}

# Links the harness with the file that says which library is under test.
build_fuzzer() { # PROGRAM FILE
    program=$1
    compile "$2" -O2
    set -- "$built/$2.o"
    for file in fuzz decode damage disk request memory tally operations mutate; do set -- "$@" "$built/$file.o"; done
    "$clang" -fsanitize=fuzzer,address,undefined -o "$built/$program" "$@" "$oracle" "$archive"
}

build_harness() {
    for file in fuzz decode damage disk request; do compile "$file" -O1 -fsanitize=fuzzer-no-link,address,undefined -fno-sanitize-recover=all; done
    for file in memory tally operations mutate seeds; do compile "$file" -O2; done
    "$clang" -fsanitize=fuzzer-no-link,address,undefined -o "$built/seeds" "$built/seeds.o" "$built/operations.o" "$oracle"
    mkdir "$work/seeds"
    "$built/seeds" "$work/seeds"
}

# What the fuzzer prints goes to work/log. Its status is not 0 if it found something.
fuzz() { # PROGRAM SECONDS CORPUS PREFIX
    "$built/$1" -max_total_time="$2" -max_len=198000 -timeout=20 -print_final_stats=1 -artifact_prefix="$4" "$3" "$work/seeds" >"$work/log" 2>&1
}

# Runs a wrong library for so many seconds, from the seeds alone; fails if it is not found.
find_wrong() { # PROGRAM WRONG SECONDS
    rm -rf "$work/wrong"
    mkdir "$work/wrong"
    if WRONG=$2 fuzz "$1" "$3" "$work/wrong" "$work/wrong-"; then return 1; fi
    grep -a -q -e '^DIFFERENCE' -e 'AddressSanitizer: SEGV' "$work/log" || { cat "$work/log"; echo "fuzz: wrong library $2 failed by something else"; exit 1; }
}
