#!/bin/sh
# The rehearsal program beside the simulator: the same bytes for generated run files, good and damaged, for a few large ones, for rings in
# another order, for reported emitters, for nodes passed, for nodes that heartbeats name, for a W below H + D, for files at and beyond the
# greatest length, and for input that comes in pieces. The lines K of its logs are also counted once more from the logs alone, and the letter
# of their last lines is that of the P line; none is refused by 4. Then its streams: slow, full, closed or no file. Stops at the first
# difference, prints its seed and keeps its file.
#
# Usage: tests/rehearse.sh [SEED [COUNT]]; REHEARSE names another program to compare.

. "$(dirname "$0")/common.sh"

seed=${1:-$usual_seed}
count=${2:-2000}
work=$out/rehearse-$seed

# run: the program, which ends within two minutes.
run() {
    timeout 120 "$rehearse"
}

# differ NAME FILE WORDS: fails and keeps the file.
differ() {
    cp "$2" "$out/rehearse-failed.run"
    fail "$1: $3; the file is kept as $out/rehearse-failed.run"
}

# last NAME FILE: the last line of the log just compared is E or F, as W is at least H + D or below; or 8,0, or a refusal, but not by 4.
last() {
    last_line=$(tail -n 1 "$work/proved")
    case $last_line in
        [EF],*)
            IFS=, read -r _ _ period timeout delay _ < "$2"
            if [ "$timeout" -lt $((period + delay)) ]; then letter=F short=$((short + 1)); else letter=E; fi
            [ "${last_line%%,*}" = "$letter" ] || differ "$1" "$2" "the last line is $last_line, and not $letter"
            ;;
        8,0) refused=$((refused + 1)) ;;
        [1-3],* | [56],* | 13,2) ;;
        *) differ "$1" "$2" "the last line is $last_line" ;;
    esac
}

# same NAME FILE: both programs write the same bytes. Of the status only a crash and the time limit (124) are told.
same() {
    status=0
    run < "$2" > "$work/proved" || status=$?
    "$out/simulate" < "$2" > "$work/simulated"
    if [ "$status" -ge 124 ] || ! cmp -s "$work/simulated" "$work/proved"; then
        cmp "$work/simulated" "$work/proved" >&2 || true
        differ "$1" "$2" "the logs differ, status $status"
    fi
    last "$@"
    lines=$((lines + $(wc -l < "$work/proved")))
    files=$((files + 1))
}

# named NAME LINES: a file of these lines.
named() {
    printf "$2" > "$work/named.run"
    same "$1" "$work/named.run"
}

# kept NAME FILE: both write the same bytes, and the proved program's log is kept beside the file.
kept() {
    same "$@"
    mv "$work/proved" "${2%.run}.log"
}

# recounted KIND LINES MORE FILE..: every line K of the kept logs of these files is right and none is missing. At least so many came up, and so
# many of them with more than one node passed.
recounted() {
    kind=$1 least_lines=$2 least_more=$3
    shift 3
    passed=$("$out/simulate" recount "$@") || fail "the lines K of the $kind differ from those counted once more"
    set -- "$kind" $passed
    [ "$2" -ge "$least_lines" ] && [ "$3" -ge "$least_more" ] || fail "too few lines K in the $1: $passed"
    echo "rehearse: $2 lines K in the $1, $3 with more than one node passed, at most $4"
}

# padded LENGTH: a good file, then line feeds up to this length, so that its first bytes are no other file of good form.
padded() {
    { cat tests/worked.run; head -c $(($1 - 18)) /dev/zero | tr '\0' '\n'; } > "$work/padded.run"
    same "$1 bytes" "$work/padded.run"
}

# order STRIDE: a Q line of 64 nodes, each so many numbers after the one before.
order() {
    printf 'Q'
    for place in $(seq 0 63); do printf ',%d' $((place * $1 % 64)); done
    printf '\n'
}

orders() {
    named 'a Q line in number order' 'P,2,2,3,1,6\nQ,0,1\nC,3,1\n'
    cmp tests/worked.log "$work/proved" || fail 'a Q line in number order makes another log'
    named 'one node in order' 'P,1,1,2,1,5\nQ,0\n'
    named 'a node twice' 'P,3,2,3,1,6\nQ,0,1,0\n'
    printf '13,2\n' | cmp - "$work/proved" || fail 'a node twice in a Q line is not refused by 13'
    for stride in 1 27 63; do
        { printf 'P,64,20,100,5,900\n'; order "$stride"; for node in $(seq 8 15); do printf 'C,333,%d\n' "$node"; done; } > "$work/order.run"
        same "eight crash at one tick, stride $stride" "$work/order.run"
    done
}

# passes LINE: the log just compared has this line.
passes() {
    grep -qx "$1" "$work/proved" || fail "the log has no line $1"
}

nodes_passed() {
    named 'a node passed that was listed by report' 'P,4,2,3,1,60\nC,5,3\nC,19,0\nC,31,2\n'
    passes K,22,1,2,0000000000000009
    named 'the same in another order' 'P,4,2,3,1,60\nQ,2,0,3,1\nC,5,1\nC,19,2\nC,31,3\n'
    passes K,22,0,2,0000000000000006
    named 'two nodes passed after a report' 'P,10,1,13,12,220\nC,0,1\nC,103,5\nC,121,2\nC,132,4\nC,150,3\n'
    passes K,181,6,2,000000000000003e
    { printf 'P,64,1,3,2,1300\n'; for node in $(seq 63); do printf 'C,%d,%d\n' $((20 * node)) "$node"; done; } > "$work/passed.run"
    same '63 nodes passed' "$work/passed.run"
    passes K,1264,0,63,fffffffffffffffe
}

nodes_named() {
    named 'nine nodes of which heartbeats alone name one' 'P,9,4,5,1,66\nC,5,0\nC,5,2\nC,5,3\nC,5,5\n'
    passes H,22,4,1,000000000000002d
    passes H,29,8,7,000000000000002d
    named 'nodes named before they are reported' 'P,9,2,11,9,80\nC,3,8\nL,85,1\nL,94,1\nL,103,1\nL,112,1\n'
    passes H,23,1,0,0000000000000100
    passes R,40,3,8,0000000000000100
}

# short NAME LINES LAST: a file with W below H + D, whose log ends in this line.
short() {
    named "$1" "$2"
    [ "$last_line" = "$3" ] || fail "$1: the last line is $last_line, and not $3"
}

short_timeouts() {
    short "01's edge, W 2" 'P,2,2,2,1,6\n' F,6,2,0,0000000000000000
    short 'one node, a short W' 'P,1,1,1,1,5\n' F,5,1,0,0000000000000000
    short 'no event before the end' 'P,3,2,2,1,1\n' F,1,3,0,0000000000000000
    short 'a short W, and no watch expires' 'P,2,1,2,2,4\nL,0,1\nL,1,1\nL,2,1\nL,3,1\nL,4,1\nL,5,1\nL,6,1\nL,7,1\n' F,4,2,2,0000000000000000
    short 'a short W in another order' 'P,3,2,2,1,9\nQ,2,0,1\nC,3,2\n' F,9,2,0,0000000000000004
    short 'the shortest W' 'P,16,1000,1,255,3000\nC,3,1\n' F,3000,15,0,0000000000000002
    short '2,048 in flight, a short W' 'P,64,1,33,40,32\n' F,32,64,2048,0000000000000000
    named '2,049 in flight, a short W' 'P,64,1,33,40,33\n'
    [ "$last_line" = 8,0 ] || fail '2,049 in flight are not refused'
    named 'W 0' 'P,2,2,0,1,6\n'
    [ "$last_line" = 3,1 ] || fail 'W 0 is not refused by 3'
    named 'a short W, and a node twice in order' 'P,3,2,2,1,6\nQ,0,1,0\n'
    [ "$last_line" = 13,2 ] || fail 'a node twice in a Q line is not refused by 13'
}

large() {
    named '2,048 in flight' 'P,64,1,33,32,200\n'
    named '2,049 in flight' 'P,64,1,34,33,200\n'
    {
        printf 'P,64,7,40,21,900\n'
        for node in $(seq 0 63); do printf 'C,%d,%d\n' $((node * 11)) $(((node * 27) % 64)); done
        for number in $(seq 0 2047); do printf 'L,%d,%d\n' $((number * 3)) $((number % 21 + 1)); done
    } > "$work/large.run"
    same 'every node crashes, 2,048 L lines' "$work/large.run"
    cp "$work/proved" "$work/large.log"
    { head -n 1 "$work/large.run"; order 27; tail -n +2 "$work/large.run"; } > "$work/order.run"
    same 'the same in another order' "$work/order.run"
}

worked_log() {
    for ring in worked shuffled reported-ten reported-nine learnt short; do
        run < "tests/$ring.run" > "$work/$ring" || true
        cmp "tests/$ring.log" "$work/$ring" || fail "the log of tests/$ring.run differs"
    done
}

# A file that comes a few bytes at a time, and one longer than a pipe holds.
pieces() {
    { printf 'P,2,2'; sleep 0.2; printf ',3,1,6\nC,3'; sleep 0.2; printf ',1\n'; } | run > "$work/pieces" || true
    cmp tests/worked.log "$work/pieces" || fail 'input in pieces is read otherwise'
    cat "$work/padded.run" | run > "$work/pieces" || true
    printf '1,0\n' | cmp - "$work/pieces" || fail 'a long input through a pipe is read otherwise'
}

simulator
rehearsal_program
echo "rehearse: $rehearse, seed $seed, $count generated files"
mkdir -p "$work"
trap 'rm -rf "$work"' EXIT
files=0 lines=0 short=0 refused=0
worked_log
named 'no bytes' ''
named 'one node' 'P,1,1,2,1,5\n'
named 'a byte that is no text' 'P,2,2,3,1,6\n\000\377\n'
for length in 65536 65537 131072 200000; do padded "$length"; done
pieces
orders
nodes_passed
nodes_named
short_timeouts
large
c "$work/streams.so" -shared -fPIC tests/streams.c -ldl
python3 tests/streams.py "$rehearse" "$work/large.run" "$work/large.log" "$work/streams.so"
each_generated '' $((count / 50)) "$work" kept
recounted 'usual files' 0 0 "$work/$seed"-*.run
rm -f "$work/$seed"-*
each_generated small "$count" "$work" kept
recounted 'small files' $((5 * count)) "$count" "$work/$seed"-*.run
recounted 'small files with W at least H + D' $((count / 2)) $((count / 50)) $(steady "$work/$seed"-*.run)
moves=$("$out/simulate" moves $(steady "$work/$seed"-*.run))
[ "$moves" -ge $((count / 100)) ] || fail "$moves moves by report in the small files with W at least H + D"
[ "$short" -ge $((count / 6)) ] || fail "$short logs end in F"
echo "rehearse: $moves moves by report in the small files with W at least H + D"
echo "rehearse: $files files, $lines lines agree; $short of the logs end in F, $refused in 8,0"
