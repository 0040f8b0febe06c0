#!/bin/sh
# Tests the calls of a host in C through the static library: tests/host.rs compares them with the simulator's node calls,
# tests/readers.c holds the header's readers against the layouts and the calls, tests/loop.c runs the loop that stands in
# the header and the one in README.md, and the C host of include/ is compiled from the header alone and run. Mistakes planted in the readers have to
# be found. Stops at the first failure.
#
# Usage: tests/host.sh [SEED]

. "$(dirname "$0")/common.sh"

seed=${1:-$usual_seed}
library=target/staticlib/libhost.a
mistaken=$out/host-mistaken

# c99 PROGRAM WORDS..
c99() {
    c "$@" -std=c99 -pedantic "$library"
}

# prints PROGRAM: it prints the lines on standard input.
prints() {
    cat > "$1.expected"
    "$1" > "$1.out"
    cmp "$1.expected" "$1.out"
}

# mistake WORDS EDIT [PARTS]: these parts of tests/readers.c, by default two, each find the mistake that this edit by sed puts into the header.
mistake() {
    sed "$2" include/kelbraut.h > "$mistaken/kelbraut.h"
    ! cmp -s include/kelbraut.h "$mistaken/kelbraut.h" || fail "$1: the edit changes nothing"
    c99 "$mistaken/readers" -I"$mistaken" tests/readers.c
    for part in ${3:-bytes calls}; do
        status=0
        "$mistaken/readers" "$seed" "$part" > "$mistaken/out" 2> "$mistaken/err" || status=$?
        [ "$status" -eq 1 ] && grep -q "^readers: $part, line" "$mistaken/err" || fail "$1: $part does not find it"
    done
}

# loop EDIT FILE: tests/loop.c runs the loop that this edit by sed takes out of a file.
loop() {
    sed -n "$1" "$2" > "$out/loop.inc"
    c99 "$out/loop" -I"$out" tests/loop.c
    prints "$out/loop" <<'LINES'
tick 10: H to 2, subject 0, list 8
tick 15: O to 2, subject 0, list 0
tick 15: R to 2, subject 0, list 0
tick 20: H to 2, subject 0, list 9
tick 30: H to 2, subject 0, list 9
tick 31: H to 2, subject 0, list 9
tick 41: H to 2, subject 0, list 9
tick 1000001: stopped by 12
LINES
}

mkdir -p "$mistaken"
simulator
library host
rust host tests/host.rs -C link-arg="$library"
"$out/host" "$seed"

c99 "$out/readers" tests/readers.c
"$out/readers" "$seed"
mistake 'the emitter a byte late' 's/return record\[6\];/return record[7];/'
mistake 'the observer a byte early' 's/return record\[7\];/return record[6];/'
mistake 'the dead list a byte late' 's/(record, 8, 8)/(record, 9, 8)/'
mistake 'the mark a byte late' 's/(record, 32, 8)/(record, 33, 8)/'
mistake 'the list in place of the mark' 's/(record, 32, 8)/(record, 8, 8)/'
mistake 'the list of a message a byte early' 's/(message, 8, 8)/(message, 7, 8)/'
mistake 'the last tick a byte late' 's/(record, 16, 4)/(record, 17, 4)/'
mistake 'the watch a byte late' 's/(record, 20, 4)/(record, 21, 4)/'
mistake 'the heartbeat in place of the watch' 's/(record, 20, 4)/(record, 24, 4)/'
mistake 'the watch in place of the heartbeat' 's/(record, 24, 4)/(record, 20, 4)/'
mistake 'timers a tick late' 's/\(uint64_t [a-z]* = kelbraut_field(record, 2[04], 4)\) - 1;/\1;/'
mistake 'the heartbeat a tick early' 's/(record, 24, 4) - 1/(record, 24, 4) - 2/'
mistake 'the later of the timers' 's/return watch < heartbeat/return watch > heartbeat/'
mistake 'the highest byte first' 's/bytes\[place + i\]/bytes[place + size - 1 - i]/'
mistake 'nodes passed ahead, not back' 's/left < taken ? left + nodes - taken : left - taken/left > taken ? taken + nodes - left : taken - left/'
mistake 'the new emitter passed, too' 's/left + nodes - taken : left - taken/left + nodes - taken + 1 : left - taken + 1/'
mistake 'its own number for N' 's/nodes = after\[1\]/nodes = after[0]/'
mistake 'F ends no run' 's/ || letter == KELBRAUT_END_SHORT;/;/' letters
mistake 'E ends no run' 's/letter == KELBRAUT_END ||/0 ||/' letters
mistake 'the low byte alone is a letter' 's/return letter == KELBRAUT_END ||/letter \&= 255; return letter == KELBRAUT_END ||/' letters
echo 'host: 20 mistakes in the readers found'

# Calls on different records may run in several threads: the library has no bytes of its own that a call could write.
written=$(size "$library" | awk 'NR > 1 { bytes += $2 + $3 } END { print (NR > 1 ? bytes : "unknown") }')
[ "$written" = 0 ] || fail "the library has data of its own: $written"

loop '/^ \*     uint8_t node\[/,/^ \*$/s/^ \*//p' include/kelbraut.h
loop '/^    uint8_t node\[/,/^$/p' README.md
echo "host: the header's loop sends what it should"

c99 "$out/host-c" include/host.c
prints "$out/host-c" <<'LINES'
tick 1: bytes for node 1 are dropped
node 0 watches 4, sends to 1 and lists 0000000000000004
node 1 watches 0, sends to 3 and lists 0000000000000004
node 3 watches 1, sends to 4 and lists 0000000000000004
node 4 watches 3, sends to 0 and lists 0000000000000004
awake at 74 ticks of 300
LINES
echo "host: the C host does as it should"
