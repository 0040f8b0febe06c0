#!/bin/sh
# Builds the simulator and the generator of run files with rustc alone, runs the simulator's own
# tests, compares the worked logs of document 01, that of a shuffled ring, those of reported emitters and those of short
# time-outs byte by byte, runs generated files, good and damaged, and prints the simulator's speed. Stops at the first failure.
#
# Usage: tests/simulator.sh [SEED [COUNT]]

. "$(dirname "$0")/common.sh"

seed=${1:-$usual_seed}
count=${2:-600}
files=$out/generated-$seed

# answers NAME INPUT ANSWER COMMAND: the program, given COMMAND, answers INPUT by ANSWER, byte for byte.
answers() {
    printf "$2" > "$out/$1.in"
    printf "$3" > "$out/$1.expected"
    "$out/simulate" $4 < "$out/$1.in" > "$out/$1.out"
    cmp "$out/$1.expected" "$out/$1.out" || fail "the answer to $out/$1.in differs"
}

worked_logs() {
    answers two "$(cat tests/worked.run)\n" "$(cat tests/worked.log)\n" ''
    for worked in shuffled reported-ten reported-nine; do
        answers "$worked" "$(cat "tests/$worked.run")\n" "$(cat "tests/$worked.log")\n" ''
    done
    answers alone 'P,1,1,2,1,5\n' 'E,5,1,0,0000000000000000\n' ''
    answers empty '' '1,0\n' ''
    answers short 'P,2,2,2,1,6\n' 'W,2,0,1,0000000000000002\nK,2,0,1,0000000000000002\nW,2,1,0,0000000000000001\nK,2,1,1,0000000000000001\nF,6,2,0,0000000000000000\n' ''
    answers short-alone 'P,1,1,1,1,5\n' 'F,5,1,0,0000000000000000\n' ''
    answers twice 'P,2,2,3,1,6\nQ,1,1\n' '13,2\n' ''
}

# last_letter FILE: the last line of an accepted file's log, if no event is refused. The P line alone decides: F where W is below H + D.
last_letter() {
    IFS=, read -r _ _ period timeout delay _ < "$1" || return 1
    if [ "$timeout" -lt $((period + delay)) ]; then echo F; else echo E; fi
}

# ends NAME FILE: the answer is a refusal, though never by 4, or a log that ends in E or F, or in 8,0. It is kept beside the file.
ends() {
    "$out/simulate" < "$2" > "${2%.run}.log" || fail "$1: failed"
    case $(tail -n 1 "${2%.run}.log") in
        E,*) [ "$(last_letter "$2")" = E ] || fail "$1: E where W is below H + D" ;;
        F,*) [ "$(last_letter "$2")" = F ] || fail "$1: F where W is at least H + D" ;;
        [1-3],* | [56],* | 13,2 | 8,0) ;;
        *) fail "$1: no last line" ;;
    esac
}

# The tables of N 1 and of refused questions hold 255 in all 384 places.
commands() {
    none=$(printf ',255%.0s' $(seq 384))
    answers table '1,0000000000000000\n8,0000000000000100\n65,0000000000000000\n8,0\n' \
        "0$none\n3$none\n3$none\n2$none\n" table
    answers lines 'S,2,0,1,0000000000000000\nE,0,64,2049,0000000000000000\nS,02,0,1,0000000000000000\n' \
        '0,S,2,0,1,0000000000000000\n3\n2\n' lines
    answers moves '' '2\n' 'moves tests/worked.run tests/reported-ten.run tests/worked.log tests/reported-nine.run'
    answers recount '' '15 0 1\n' 'recount tests/worked.run tests/shuffled.run tests/reported-ten.run tests/reported-nine.run'
    answers recount-none '' '0 0 0\n' 'recount tests/worked.log'
    sed 's/^K,27,4,1,/K,27,4,2,/' tests/reported-ten.log > "$out/miscounted.log"
    cp tests/reported-ten.run "$out/miscounted.run"
    ! "$out/simulate" recount "$out/miscounted.run" > "$out/miscounted.out" 2>&1 || fail 'a wrong number in a line K is not found'
    printf 'P,5,1,3,2,24\nC,2,1\nC,2,2\n' > "$out/joined.run"
    answers joined '' '2 50 11 14 14 11 20\n' "joined tests/worked.run $out/joined.run tests/worked.log"
    answers joined-none '' '0 0 0 0 0 0 0\n' 'joined tests/worked.log'
    printf 'P,5,1,2,2,24\nC,2,1\nC,2,2\n' > "$out/unclaimed.run"
    answers joined-short '' '0 0 0 0 0 0 0\n' "joined $out/unclaimed.run"
    printf 'P,3,2,3,2,16\nL,0,1\nL,1,1\n' > "$out/false.run"
    answers false '' "tests/worked.run - 0 0\n$out/false.run 3 3 6\ntests/worked.log refused 2,1\n$out/joined.run - 0 0\n" \
        "false tests/worked.run $out/false.run tests/worked.log $out/joined.run"
}

# recounted KIND LINES MORE FILE..: every line K of the files' logs is right and none is missing. At least so many come up, and so many of
# them with more than one node passed.
recounted() {
    kind=$1 least_lines=$2 least_more=$3
    shift 3
    passed=$("$out/simulate" recount "$@") || fail "the lines K of the $kind differ from those counted once more"
    set -- $passed
    echo "simulator: $1 lines K in the $kind, $2 with more than one node passed, at most $3"
    [ "$1" -ge "$least_lines" ] && [ "$2" -ge "$least_more" ] || fail "too few lines K in the $kind"
}

# joined FILE..: survivors are joined wherever request 106 owes it, and their lists full wherever request 107 does; both are owed often enough.
joined() {
    told=$("$out/simulate" joined "$@") || fail 'survivors are not joined, or their lists are not full'
    set -- $told
    echo "simulator: $1 generated files with a crash, survivors joined after all $2 events at which they have to be;"
    echo "simulator: nearest to its bound they were not yet joined $3 ticks after a last crash, of $4"
    echo "simulator: lists full after all $5 events at which they have to be; nearest to its bound not yet $6 ticks after a last crash, of $7"
    [ "$1" -ge $((count / 3)) ] && [ "$2" -ge $((50 * count)) ] && [ "$3" -gt 0 ] || fail 'too few survivors have to be joined'
    [ "$5" -ge $((50 * count)) ] && [ "$6" -gt 0 ] || fail 'too few lists have to be full'
}

# falsely FILE..: live nodes are listed only where W is below H + D; in many of these files they are, and in some not.
falsely() {
    "$out/simulate" false "$@" > "$out/falsely.out" || fail 'a live node is listed though W is at least H + D'
    told=0 short=0 listing=0 most=0 events=0
    while read -r file first in_one in_all; do
        [ "$first" != refused ] || continue
        told=$((told + 1))
        [ "$(last_letter "$file")" = F ] || continue
        short=$((short + 1))
        [ "$first" != - ] || continue
        listing=$((listing + 1)) events=$((events + in_all))
        [ "$in_one" -le "$most" ] || most=$in_one
    done < "$out/falsely.out"
    echo "simulator: $short of $told accepted files have W below H + D; in $listing of these live nodes are listed, at most $most, by $events events"
    [ "$short" -ge $((told / 4)) ] && [ "$listing" -ge $((short / 2)) ] || fail 'too few short time-outs'
    [ "$events" -ge $((10 * count)) ] || fail 'too few live nodes are listed'
}

echo "simulator: seed $seed, $count generated files"
simulator
rustc --edition 2021 -D warnings -C opt-level=1 -C debug-assertions --test docs/src/simulator.rs -o "$out/simulator-tests"
"$out/simulator-tests" --quiet
worked_logs
commands
mkdir -p "$files"
each_generated '' "$count" "$files" ends
echo "simulator: $("$out/simulate" moves "$files"/*.run) moves by report in the generated files"
recounted 'generated files' $((5 * count)) "$count" "$files"/*.run
recounted 'generated files with W at least H + D' "$count" $((count / 10)) $(steady "$files"/*.run)
joined "$files"/*.run
falsely "$files"/*.run
rm -r "$files"
printf 'P,64,10,265,255,1000000\n' > "$out/speed.run"
"$out/simulate" time "$out/speed.run"
echo "simulator: passed"
