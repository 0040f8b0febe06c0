#!/bin/sh
# Links the proved platform's calls into a comparison with the simulator, and runs it.
#
# Usage: tests/platform.sh [SEED [COUNT]]
#        tests/platform.sh mock [SEED [COUNT]]
#
# `mock` tests the comparison itself and needs no proved code: the calls are the simulator's own, first with one mistake after
# another, each of which has to be found, then with none.

. "$(dirname "$0")/common.sh"

simulator
if [ "${1:-}" = mock ]; then
    shift
    rust platform-mock --cfg mock tests/platform.rs
    "$out/platform-mock" "$@"
    exit
fi
library planner
rust platform tests/platform.rs
"$out/platform" "$@"
