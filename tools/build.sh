#!/bin/sh
# Proves and builds what is named, for C, for Rust or to be run: a program into target/bin/, a static library into
# target/staticlib/ under the name libNAME.a. What stands there as it was made is not made again.
#
# Usage: tools/build.sh NAME.., as rehearse, tables, host, planner and lines

. "$(dirname "$0")/../tests/common.sh"

for crate in "$@"; do
    if [ -f "crates/$crate/src/main.rt" ]; then
        program "$crate"
    elif grep -q "^${crate}\(_c\)\{0,1\} staticlib" crates.txt; then
        library "$crate"
    else
        fail "there is no program and no static library $crate"
    fi
done
