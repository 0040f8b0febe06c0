#!/bin/sh
# Builds the simulator, and the proved programs with all crates. A test builds what it uses by itself; here that is done before tests that
# run at the same time.

. "$(dirname "$0")/common.sh"

simulator
quietly rt all check
program rehearse
program tables
echo "programs: built"
