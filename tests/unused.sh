#!/bin/sh
# Links the proved platform's and the dispatcher's calls into a test of unused bytes, and runs it.
#
# Usage: tests/unused.sh
#        tests/unused.sh mock
#
# `mock` tests the test itself and needs no proved code: the calls are the simulator's own, first with one mistake after another, each of
# which has to be found, then with none.

. "$(dirname "$0")/common.sh"

simulator
if [ "${1:-}" = mock ]; then
    rust unused-mock --cfg mock tests/unused.rs
    "$out/unused-mock"
    exit
fi
library planner
rust unused tests/unused.rs
"$out/unused"
