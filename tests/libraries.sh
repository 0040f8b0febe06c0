#!/bin/sh
# Builds the static libraries that tests link. A test builds what it uses by itself; here that is done before tests that run at the same
# time.

. "$(dirname "$0")/common.sh"

for crate in host planner lines; do
    library "$crate"
done
echo "libraries: built"
