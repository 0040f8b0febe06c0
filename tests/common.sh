# What the scripts of tests/ and tools/ begin with: `. "$(dirname "$0")/common.sh"`. It goes to the repository's folder, stops at the
# first failure, and has what they share: building, comparing, failing. What is built stands in target/tests/, and is built anew where
# what it is made of, or it itself, is no longer what it was.

set -eu

name=$(basename "$0" .sh)
cd "$(dirname "$0")/.."
out=target/tests
mkdir -p "$out"
# The seed where none is given.
usual_seed=20261115

fail() {
    echo "$name: $1" >&2
    exit 1
}

# quietly COMMAND..: what it prints is shown only where it fails.
quietly() {
    "$@" > "$out/$name.log" 2>&1 || {
        tail -n 30 "$out/$name.log" >&2
        fail "$* fails"
    }
}

# ---- building, once for all scripts

# sum PATH..: of the names and the bytes of all files there, without what the kit makes in the crates' out/.
sum() {
    find "$@" -path 'crates/*/out' -prune -o -type f -exec sha256sum {} + | sort | sha256sum
}

# made SOURCES FILE.. -- COMMAND..: runs a command that makes files, unless they and their sources are, byte for byte, as they were after
# it ran last. SOURCES is a word that changes with them. A mark beside the first file keeps both.
made() (
    sources=$1 mark=$out/$(basename "$2").made files=
    shift
    while [ "$1" != -- ]; do
        files="$files $1"
        shift
    done
    shift
    if [ -f "$mark" ] && [ "$(cat "$mark")" = "$sources $(sum $files 2>/dev/null)" ]; then
        exit
    fi
    rm -f "$mark"
    "$@" || exit
    for file in $files; do
        [ -f "$file" ] || fail "$* does not make $file"
    done
    echo "$sources $(sum $files)" > "$mark"
)

# proved FILE COMMAND..: what a command of the kit makes of the crates.
proved() {
    proved_file=$1
    shift
    sources="$(rt version) $(sum crates crates.txt)"
    made "$sources" "$proved_file" -- quietly "$@"
}

# archive NAME CRATE: proves and builds this static library, which is then target/staticlib/libNAME.a.
archive() {
    (cd "crates/$2" && rt lib) && mkdir -p target/staticlib && cp "crates/$2/out/lib$2.a" "target/staticlib/lib$1.a"
}

# library NAME: target/staticlib/libNAME.a. It is the crate NAME_c where NAME is a library for other crates, too.
library() {
    library_crate=$1
    [ ! -d "crates/${1}_c" ] || library_crate=${1}_c
    proved "target/staticlib/lib$1.a" archive "$1" "$library_crate"
}

# executable NAME: proves and builds this program, holds it to its files `stdin` and `stdout`, and puts it into target/bin/.
executable() {
    (cd "crates/$1" && rt run < stdin) > "$out/$1.stdout" && cmp "crates/$1/stdout" "$out/$1.stdout" && mkdir -p target/bin &&
        cp "crates/$1/out/$1" "target/bin/$1"
}

# program NAME: target/bin/NAME, as LLVM builds it.
program() {
    proved "target/bin/$1" executable "$1"
}

# rehearsal_program: $rehearse is the proved rehearsal program, or the one that REHEARSE names.
rehearsal_program() {
    rehearse=${REHEARSE:-target/bin/rehearse}
    [ -n "${REHEARSE:-}" ] || program rehearse
    [ -x "$rehearse" ] || fail "there is no program $rehearse"
}

# rust PROGRAM WORDS..: compiles with the simulator and the static libraries at hand.
rust() (
    program=$1
    shift
    rustc --edition 2021 -D warnings -O --check-cfg 'cfg(mock)' --extern simulator="$out/libsimulator.rlib" -L native=target/staticlib \
        -o "$out/$program" "$@"
)

simulator_parts() {
    rustc --edition 2021 -D warnings -O -C codegen-units=1 --crate-type rlib docs/src/simulator.rs --out-dir "$out" &&
        rust simulate -C codegen-units=1 docs/src/simulate.rs &&
        rust generate docs/src/generate.rs
}

# simulator: its library, the program `simulate` and the generator of run files.
simulator() {
    sources="$(rustc --version) $(sum docs/src/*.rs tests/common.sh)"
    made "$sources" "$out/simulate" "$out/generate" "$out/libsimulator.rlib" -- simulator_parts
}

# c PROGRAM WORDS..: compiles and links a C program; a folder of -I is looked at before include/.
c() (
    program=$1
    shift
    gcc -std=c11 -Wall -Wextra -Werror -O2 "$@" -Iinclude -o "$program"
)

# ---- comparing

# steady FILE..: those of them with W at least H + D.
steady() {
    awk -F, 'FNR == 1 && $4 + 0 >= $3 + $5 { print FILENAME }' "$@"
}

# each_generated KIND COUNT FOLDER COMMAND: COMMAND NAME FILE for each file of the generator; KIND is `small` or nothing.
each_generated() {
    "$out/generate" $1 "$seed" "$2" "$3"
    index=0
    while [ "$index" -lt "$2" ]; do
        "$4" "seed $seed index $index ${1:-usual}" "$3/$seed-$index.run"
        index=$((index + 1))
    done
}
