#!/bin/sh
# Links the proved log reader, columns and writer into a driver, and compares them with the simulator's on seeded lines.
#
# Usage: tests/lines.sh [SEED [COUNT]]
#        tests/lines.sh mock [SEED [COUNT]]
#
# `mock` tests the comparison itself and needs no proved code: the calls are the simulator's own, first with one mistake after another, each
# of which has to be found, then with none.

. "$(dirname "$0")/common.sh"

simulator
if [ "${1:-}" = mock ]; then
    shift
    rust lines-mock --cfg mock tests/lines.rs
    "$out/lines-mock" "$@"
    exit
fi
library lines
rust lines tests/lines.rs
"$out/lines" "$@"
