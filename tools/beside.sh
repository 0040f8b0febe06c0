#!/bin/sh
# Times opening, a step, the run-file writer and the test of a store by the library of another revision and by that of this tree, in one
# process, call by call, and compares what they answer and leave. Not part of the gate: it says how fast.
#
# Usage: tools/beside.sh REVISION [ROUNDS]: each time is the shortest of so many, by default 2,000. The library of the other revision is
# proved and built in a clone outside this folder, since `rt ci` refuses a second repository within, which takes minutes; it is kept in
# target/beside/ and built anew only where it is not as it was made. The revision has to be one that today's kit proves.

. "$(dirname "$0")/../tests/common.sh"

[ $# -ge 1 ] || fail "which revision? Usage: tools/beside.sh REVISION [ROUNDS]"
commit=$(git rev-parse --verify --quiet "$1^{commit}") || fail "there is no revision $1"
shift
folder=target/beside
mkdir -p "$folder"

# shared FOLDER FILE: the library in that folder as a shared object, since the symbols of both are the same and could not be linked into
# one program.
shared() {
    gcc -shared -o "$2" -Wl,--whole-archive "$1/target/staticlib/libplanner.a" -Wl,--no-whole-archive
}

before() {
    echo "$name: building the library of $commit" >&2
    clone=$(mktemp -d)
    trap 'rm -rf "$clone"' EXIT
    quietly git clone --quiet --no-checkout . "$clone"
    quietly git -C "$clone" checkout --quiet --detach "$commit"
    quietly sh "$clone/tools/build.sh" planner
    shared "$clone" "$folder/$commit.so"
}

made "$(rt version) $(gcc -dumpfullversion) $(sum tools/beside.sh)" "$folder/$commit.so" -- before
library planner
shared . "$folder/now.so"
simulator
rust beside -C codegen-units=1 tools/beside.rs
"$out/beside" "$folder/$commit.so" "$folder/now.so" "$@"
