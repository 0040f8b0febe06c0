#!/bin/sh
# Compares the forwarding tables of the proved program with the simulator's, byte for byte.
# For each N from 0 to 66, 100 and 999: no node listed, every node, all but one, every bit, each single bit, random lists
# below N, and random lists with a bit from N on.
#
# Usage: tests/table.sh [SEED]

. "$(dirname "$0")/common.sh"

seed=${1:-1}
program tables
simulator
work=$(mktemp -d)
trap 'rm -r "$work"' EXIT

awk -v seed="$seed" '
# a number from 0 to below k, by the minimal standard generator, so that a seed gives the same lists everywhere
function below(k) {
    seed = (seed * 16807) % 2147483647
    return int(seed / 2147483647 * k)
}
# the line of N and the 64 bits
function line(n,    i, text) {
    text = ""
    for (i = 60; i >= 0; i -= 4)
        text = text sprintf("%x", 8 * bit[i + 3] + 4 * bit[i + 2] + 2 * bit[i + 1] + bit[i])
    print n "," text
}
# the bits below k are 1, the others 0
function fill(k,    i) {
    for (i = 0; i < 64; i++) bit[i] = i < k
}
# each bit below k is 1 with odds of `odds` in eight, the others 0
function scatter(k, odds,    i) {
    for (i = 0; i < 64; i++) bit[i] = i < k && below(8) < odds
}
function cases(n,    i, odds, top) {
    top = n < 64 ? n : 64
    fill(0); line(n)
    fill(top); line(n)
    if (top > 0) { bit[below(top)] = 0; line(n) }
    fill(64); line(n)
    for (i = 0; i < 64; i++) { fill(0); bit[i] = 1; line(n) }
    for (odds = 1; odds < 8; odds++) for (i = 0; i < 3; i++) { scatter(top, odds); line(n) }
    if (top < 64) for (i = 0; i < 3; i++) { scatter(top, 4); bit[top + below(64 - top)] = 1; line(n) }
}
BEGIN {
    seed = seed % 2147483646 + 1
    for (n = 0; n <= 66; n++) cases(n)
    cases(100)
    cases(999)
}' >"$work/lines"

target/bin/tables <"$work/lines" >"$work/proved"
"$out/simulate" table <"$work/lines" >"$work/simulated"
count=$(wc -l <"$work/lines")
if [ "$(wc -l <"$work/proved")" -ne "$count" ]; then
    fail "the proved program does not write a line for each of $count (seed $seed)"
fi
if ! cmp -s "$work/proved" "$work/simulated"; then
    at=$(cmp "$work/proved" "$work/simulated" 2>&1 | sed -n 's/.*line \([0-9]*\).*/\1/p')
    fail "the programs differ (seed $seed), first at: $(sed -n "${at:-1}p" "$work/lines")"
fi
echo "table: $count lists agree (seed $seed)"
