#!/bin/sh
# Links the proved reader and writer of run files, in the platform's calls, into a comparison with the simulator's, and runs it.
#
# Usage: tests/files.sh [SEED [COUNT]]

. "$(dirname "$0")/common.sh"

simulator
library planner
rust files tests/files.rs
"$out/files" "$@"
