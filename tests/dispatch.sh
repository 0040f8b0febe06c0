#!/bin/sh
# Links the proved dispatcher's call into a comparison with the simulator, and runs it.
#
# Usage: tests/dispatch.sh [SEED [COUNT]]
#        tests/dispatch.sh mock [SEED [COUNT]]
#
# `mock` tests the comparison itself and needs no proved code: the calls are the simulator's own, the dispatcher's first with one mistake
# after another, each of which has to be found, then with none.

. "$(dirname "$0")/common.sh"

simulator
if [ "${1:-}" = mock ]; then
    shift
    rust dispatch-mock --cfg mock tests/dispatch.rs
    "$out/dispatch-mock" "$@"
    exit
fi
library planner
rust dispatch tests/dispatch.rs
"$out/dispatch" "$@"
