#!/bin/sh
# The pictures of tools/timeline.py. The committed ones, docs/rehearsal.svg and docs/short.svg, are those of
# docs/rehearsal.run and docs/short.run, byte for byte. The latter has W below H + D: false listings, of nodes that are
# alive, are told apart from others by mark, colour, label and words, and no line says then that all know. Refused,
# incomplete and strange logs, moves and K lines without each other, and run files that are not a log's own, are told in words and leave no file. What is
# drawn is held against the log's lines: every mark, the tick from which all survivors list all crashed nodes, who lacks whom, and labels that stand apart.
# Each move of an emitter has its number, which is that of its K line and of the ring. With a run file that has a Q line the rows stand in its order. With
# and without it an arrow begins at the move that sent it, an expired watch or a report of the emitter.
#
# Usage: tests/timeline.sh [SEED [COUNT]]

. "$(dirname "$0")/common.sh"

seed=${1:-$usual_seed}
count=${2:-40}
work=$out/timeline-$seed

simulator
mkdir -p "$work"
trap 'rm -rf "$work"' EXIT
for shown in rehearsal short; do
    "$out/simulate" < "docs/$shown.run" | python3 tools/timeline.py - "$work/$shown.svg"
    cmp "docs/$shown.svg" "$work/$shown.svg"
done
"$out/generate" small "$seed" "$count" "$work"
python3 tests/timeline.py "$out/simulate" "$work" docs/rehearsal.run docs/short.run tests/learnt.run "$work/$seed"-*.run
