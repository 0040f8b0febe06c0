#!/bin/sh
# Builds the simulator's search over all runs of small rings, and runs its table or one search.
#
# Usage: tests/exhaust.sh [N H W D END [NODE..]]

. "$(dirname "$0")/common.sh"

simulator
rust exhaust tests/exhaust.rs
"$out/exhaust" "$@"
