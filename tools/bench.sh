#!/bin/sh
# Times the proved platform's calls and the rehearsal program beside the simulator's, and compares their stores and logs.
# Not part of the gate: it says how fast, and takes minutes.
#
# Usage: tools/bench.sh [quick] [FILE..]

. "$(dirname "$0")/../tests/common.sh"

library planner
program rehearse
simulator
rust bench -C codegen-units=1 tools/bench.rs
"$out/bench" "$@"
