#!/bin/sh
# The nodes beside the rehearsal: tests/records.c drives a record for each node of a run file through the calls of a host in C,
# and its log has to be the rehearsal program's, byte for byte: what is rehearsed is what the nodes do. The files are those
# named below, most of 48 nodes, and generated ones; refused ones are left out, and those with a Q line, as records stay in number
# order. With W below H + D lists hold live nodes, and still every call is accepted; with W at least H + D none does. Mistakes planted in
# tests/records.c have to be found. Stops at the first difference, prints its seed and keeps its file.
#
# Usage: tests/records.sh [SEED [COUNT]]: COUNT small generated files, a fifth as many large ones, about half of them without a Q
# line; REHEARSE names another program.

. "$(dirname "$0")/common.sh"

seed=${1:-$usual_seed}
count=${2:-2100}
work=$out/records-$seed
seconds=20

# compile MISTAKE PROGRAM
compile() {
    c "$2" -DMISTAKE="$1" tests/records.c target/staticlib/libhost.a
}

# differ NAME FILE WORDS: fails and keeps the file.
differ() {
    cp "$2" "$out/records-failed.run"
    fail "$1: $3; the file is kept as $out/records-failed.run"
}

# rehearsed NAME FILE: the log of the rehearsal program, for comparison. Of its status only a crash is told, and too long a time.
rehearsed() {
    status=0
    timeout "$seconds" "$rehearse" < "$2" > "$work/rehearsed" || status=$?
    [ "$status" -lt 124 ] || differ "$1" "$2" "$rehearse ends with status $status"
}

# same NAME FILE: after `rehearsed`, the records' log is the same.
same() {
    status=0
    timeout "$seconds" "$out/records" < "$2" > "$work/records" 2> "$work/live" || status=$?
    if [ "$status" -ne 0 ] || ! cmp "$work/rehearsed" "$work/records" >&2; then
        cat "$work/live" >&2
        differ "$1" "$2" "the nodes do otherwise than is rehearsed, status $status"
    fi
    cut -c 1 "$work/records" >> "$work/letters"
    IFS=, read -r letter nodes period timeout delay rest < "$2"
    enough=long
    [ "$timeout" -ge $((period + delay)) ] || enough=short
    sed -n 's/^K,[0-9]*,[0-9]*,\([0-9]*\),.*/\1/p' "$work/records" >> "$work/passed-$enough"
    read -r live < "$work/live"
    files=$((files + 1))
    [ "$nodes" -lt 48 ] || wide=$((wide + 1))
    if [ "$enough" = short ]; then
        short=$((short + 1))
        [ "$live" -eq 0 ] || listing=$((listing + 1))
        listed=$((listed + live))
    elif [ "$live" -ne 0 ]; then
        differ "$1" "$2" "$live calls leave a live node in a list"
    fi
}

# generated NAME FILE: the same, unless the file has a Q line or is refused.
generated() {
    if grep -qa '^Q' "$2"; then
        ordered=$((ordered + 1))
        return
    fi
    rehearsed "$1" "$2"
    case $(head -n 1 "$work/rehearsed") in
        [1-3],* | [56],*) refused=$((refused + 1)) ;;
        *) same "$1" "$2" ;;
    esac
}

# named WORDS COMMAND..: the file that the command writes, which may not be refused.
named() {
    words=$1
    shift
    "$@" > "$work/named.run"
    rehearsed "$words" "$work/named.run"
    same "$words" "$work/named.run"
}

# ring P-LINE [CRASHES..]: a file of this P line. Each five numbers are C lines: how many, from which tick on, how many ticks
# apart, from which of 48 nodes on, how many nodes apart.
ring() {
    echo "$1"
    shift
    while [ $# -gt 0 ]; do
        for place in $(seq 0 $(($1 - 1))); do
            echo "C,$(($2 + place * $3)),$((($4 + place * $5) % 48))"
        done
        shift 5
    done
}

# 2,048 L lines: every second message, delays 1 to 21.
ring_with_delays() {
    ring "$@"
    for place in $(seq 0 2047); do
        echo "L,$((place * 2)),$((place * 8 % 21 + 1))"
    done
}

# 48 nodes, of which 20 crash, every second one, soon after each other.
many_delays() {
    ring_with_delays P,48,7,28,21,900 20 60 17 30 46
}

small_rings() {
    named "01's worked example" ring P,2,2,3,1,6 1 3 0 1 0
    named 'one node' ring P,1,1,2,1,5
    named 'up to the greatest tick' ring P,3,1000,1255,255,1000000 1 500000 0 1 0
    named 'a reported emitter among ten' cat tests/reported-ten.run
    named 'a reported emitter among nine' cat tests/reported-nine.run
    named 'two nodes passed after a report' ring P,10,1,13,12,220 1 0 0 1 0 1 103 0 5 0 1 121 0 2 0 1 132 0 4 0 1 150 0 3 0
    named 'a report that dies with its relays' ring P,5,3,5,2,92 1 4 0 1 0 2 5 0 3 1
    grep -q '^S,90,0,2,000000000000001a$' "$work/records" || fail 'a report that dies with its relays leaves a list short'
}

# lists WORDS: with W below H + D a live node got listed, in the file just compared.
lists() {
    [ "$live" -gt 0 ] || fail "$1: no live node is listed"
}

# With W below H + D.
short_rings() {
    named "01's edge, W 2" ring P,2,2,2,1,6
    lists "01's edge, W 2"
    named 'three nodes alone' cat tests/short.run
    cmp tests/short.log "$work/records" || fail 'the log of tests/short.run differs'
    lists 'three nodes alone'
    named 'one node, a short W' ring P,1,1,1,1,5
    named 'no event before the end' ring P,5,9,3,2,2
    named 'a short W up to the greatest tick' ring P,3,1000,1100,255,1000000 1 500000 0 1 0
    lists 'a short W up to the greatest tick'
    for w in 1 15 29 30; do
        named "48 nodes, H 25, W $w, D 6" ring "P,48,25,$w,6,900" 4 57 40 5 17
        lists "48 nodes, H 25, W $w, D 6"
    done
    named '2,048 in flight with a short W' ring P,64,1,33,40,32
    named 'a watch brings 2,049 into flight' ring P,64,1,33,40,33
    [ "$(tail -n 1 "$work/records")" = 8,0 ] || fail 'a watch brings 2,049 into flight, and is not refused'
}

rings_of_48() {
    named 'eight neighbours crash at one tick' ring P,48,100,120,20,4000 8 730 0 20 1
    named 'eight neighbours about node 0' ring P,48,100,120,20,4000 4 730 0 0 1 4 730 0 44 1
    named 'crashes spaced by S' ring P,48,10,30,10,4000 32 57 110 5 17
    named 'all but one crash, going back' ring P,48,10,30,10,1500 47 57 3 5 47
    named 'all crash, going ahead' ring P,48,10,30,10,1500 48 57 9 5 1
    named 'all crash, going ahead, L lines' ring_with_delays P,48,10,31,21,1500 48 57 9 5 1
    named '2,048 L lines' many_delays
}

full_rings() {
    named '2,048 in flight' ring P,64,1,33,32,200
    named '2,049 in flight' ring P,64,1,34,33,200
    named 'reports bring 2,049 into flight' ring P,48,1,43,42,500 1 100 0 9 0
}

# mistaken MISTAKE STATUS: tests/records.c with this mistake ends so on the file of many delays, and writes another log.
mistaken() {
    compile "$1" "$work/mistaken"
    status=0
    timeout "$seconds" "$work/mistaken" < "$work/mistaken.run" > "$work/records" 2> "$work/mistaken.err" || status=$?
    [ "$status" -eq "$2" ] || fail "mistake $1: status $status"
    ! cmp -s "$work/rehearsed" "$work/records" || fail "mistake $1 is not found"
}

mistakes() {
    many_delays > "$work/mistaken.run"
    rehearsed 'mistakes' "$work/mistaken.run"
    for mistake in 1 2 3 4 5 7 8; do
        mistaken "$mistake" 0
    done
    mistaken 6 1
    grep -q '^records: kelbraut_node_timers of node 0 at tick 7 answers 9$' "$work/mistaken.err" || fail 'mistake 6: another call'
    ring P,5,9,3,2,2 > "$work/mistaken.run"
    rehearsed 'mistakes' "$work/mistaken.run"
    for mistake in 9 10; do
        mistaken "$mistake" 0
    done
}

# counted: how many lines there were of each letter, and of 8,0. All of them have to come up.
counted() {
    for letter in C H O R X W S K E F 8; do
        lines=$(grep -c "^$letter" "$work/letters") || fail "no line of letter $letter came up"
        printf ' %s %d' "$letter" "$lines"
    done
}

simulator
rehearsal_program
library host
echo "records: $rehearse, seed $seed, $count small and $((count / 5)) large generated files"
mkdir -p "$work"
trap 'rm -rf "$work"' EXIT
compile 0 "$out/records"
# A program that writes without end is stopped at 64 megabytes.
ulimit -f 131072
files=0 wide=0 ordered=0 refused=0 short=0 listing=0 listed=0
small_rings
short_rings
rings_of_48
full_rings
mistakes
each_generated '' $((count / 5)) "$work" generated
each_generated small "$count" "$work" generated
moves=$("$out/simulate" moves tests/reported-*.run $(steady $(grep -La '^Q' "$work/$seed"-*.run)))
[ "$moves" -ge $((count / 150)) ] || fail "$moves moves by report in the two files made for it and the small ones with W at least H + D"
more=$(cat "$work"/passed-* | grep -vcx 1) || fail 'no node passed more than one'
steady_more=$(grep -vcx 1 "$work/passed-long") || fail 'no node passed more than one with W at least H + D'
[ "$steady_more" -ge $((count / 50)) ] || fail "$steady_more lines K with more than one node passed with W at least H + D"
[ "$short" -ge $((count / 10)) ] && [ "$listing" -ge $((count / 15)) ] || fail "$short files with a short W, $listing of them list a live node"
lines=$(counted)
echo "records: $files files, $wide of them with 48 nodes or more, agree; $ordered with a Q line, $refused refused; 10 mistakes found"
echo "records: $short files with W below H + D, in $listing of them records list a live node, after $listed calls, each accepted"
echo "records: $moves moves by report in the two files made for it and the small ones with W at least H + D; lines:$lines"
echo "records: $more lines K with more than one node passed, $steady_more of them with W at least H + D, at most $(sort -n "$work"/passed-* | tail -n 1)"
