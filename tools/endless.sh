#!/bin/sh
# The comparisons with the simulator for as long as one likes, each round with a fresh seed: run files through the rehearsal
# program, the platform's calls, the dispatcher's, the reader of run files, log lines, node records and the header's readers of them;
# and rings of node records beside the rehearsal program. Builds all of them first. Prints what it tries, stops at the first difference and
# says how to repeat it.
#
# Usage: tools/endless.sh [SEED [ROUNDS]]: the seed of the first round, by default from the clock, and how many rounds, by default
# until it is stopped. REHEARSE names another program than the proved one.

. "$(dirname "$0")/../tests/common.sh"

seed=${1:-$(date +%s)}
rounds=${2:-0}
began=$(date +%s)

# try COMMAND..: one comparison; the last line that it prints is shown.
try() {
    if ! "$@" > "$out/endless.log" 2>&1; then
        tail -n 30 "$out/endless.log" >&2
        fail "round $round, seed $seed: a difference; to repeat: $*"
    fi
    echo "  $* | $(grep -v ': passed$' "$out/endless.log" | tail -n 1)"
}

echo "endless: building, which takes some minutes"
rehearsal_program
for test in simulator platform dispatch files lines host; do
    quietly sh "tests/$test.sh"
done

round=1
while [ "$rounds" -eq 0 ] || [ "$round" -le "$rounds" ]; do
    echo "endless: round $round, seed $seed, $(($(date +%s) - began)) s"
    try sh tests/rehearse.sh "$seed" 500
    try "$out/platform" "$seed" 300
    try "$out/dispatch" "$seed" 400
    try "$out/files" "$seed" 400
    try "$out/lines" "$seed" 200000
    try "$out/host" "$seed"
    try "$out/readers" "$seed"
    try sh tests/records.sh "$seed" 350
    seed=$((seed + 1000))
    round=$((round + 1))
done
echo "endless: $rounds rounds agree"
