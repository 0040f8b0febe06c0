#!/bin/sh
# Tests the dispatcher's program of include/, which is compiled from the header alone, as C and, where there is g++, as C++: what it prints
# of run files side by side is compared with fixed outputs, one of them README's, and with those that tests/turns.py computes from the
# rehearsal program's logs. Stops at the first failure.
#
# Usage: tests/turns.sh [SEED [COUNT]]

. "$(dirname "$0")/common.sh"

seed=${1:-$usual_seed}
count=${2:-60}
library=target/staticlib/libplanner.a
dispatch=$out/dispatch-c
runs=$out/turns

# prints STATUS OUTPUT ERRORS ARGUMENT ..: what the program writes, in the folder of run files, and how it ends.
prints() {
    expected=$1
    printf "$2" > "$out/turns-expected"
    printf "$3" > "$out/turns-expected-errors"
    shift 3
    status=0
    (cd "$runs" && timeout 60 ../dispatch-c "$@") > "$out/turns-printed" 2> "$out/turns-errors" || status=$?
    cmp "$out/turns-expected" "$out/turns-printed"
    cmp "$out/turns-expected-errors" "$out/turns-errors"
    [ "$status" -eq "$expected" ] || fail "status $status instead of $expected"
}

# Three planners: 178 events, 8 events, and 2,048 before one that is refused. A fourth has nothing to do, since a node alone does nothing.
# A fifth has a W below H + D, with which three nodes list each other.
files() {
    rm -rf "$runs"
    mkdir "$runs"
    printf 'P,6,5,27,2,90\nC,30,1\nC,35,2\n' > "$runs/six.run"
    printf 'P,2,2,3,1,6\nC,3,1\n' > "$runs/two.run"
    printf 'P,64,1,34,33,200\n' > "$runs/full.run"
    printf 'P,1,1,2,1,5\n' > "$runs/alone.run"
    printf 'P,3,2,2,1,8\n' > "$runs/short.run"
}

outputs() {
    prints 1 'call 1, 9 of 9 turns: 0:50 1:50 2:8 0:50 1:50 0:50 1:50 0:50 1:28
  1 six.run: done after 178 events
  2 two.run: done after 8 events
call 2, 9 of 9 turns: 0:50 0:50 0:50 0:50 0:50 0:50 0:50 0:50 0:50
call 3, 9 of 9 turns: 0:50 0:50 0:50 0:50 0:50 0:50 0:50 0:50 0:50
call 4, 9 of 9 turns: 0:50 0:50 0:50 0:50 0:50 0:50 0:50 0:50 0:50
call 5, 9 of 9 turns: 0:50 0:50 0:50 0:50 0:50 0:50 0:50 0:50 0:50
call 6, 1 of 9 turns: 0:48
  0 full.run: stopped by 8 after 2048 events
' '' 50 9 full.run six.run two.run
    # Four whole turns of the store that is stopped; the refused event takes a fifth, without events: in the same call, or first in the next.
    prints 1 'call 1, 7 of 8 turns: 0:178 1:512 2:8 1:512 1:512 1:512 1:0
  0 six.run: done after 178 events
  1 full.run: stopped by 8 after 2048 events
  2 two.run: done after 8 events
' '' 512 8 six.run full.run two.run
    prints 1 'call 1, 6 of 6 turns: 0:512 1:178 2:8 0:512 0:512 0:512
  1 six.run: done after 178 events
  2 two.run: done after 8 events
call 2, 1 of 6 turns: 0:0
  0 full.run: stopped by 8 after 2048 events
' '' 512 6 full.run six.run two.run
    # A store that is done at the end of a whole turn uses no other, nor does one that never has an event.
    prints 1 'call 1, 5 of 5 turns: 0:178 2:178 2:178 2:178 2:178
  0 six.run: done after 178 events
  1 alone.run: done after 0 events
call 2, 5 of 5 turns: 2:178 2:178 2:178 2:178 2:178
call 3, 3 of 5 turns: 2:178 2:178 2:90
  2 full.run: stopped by 8 after 2048 events
' '' 178 5 six.run alone.run full.run
    prints 0 'call 1, 2 of 2 turns: 0:8 2:89
  0 two.run: done after 8 events
  1 alone.run: done after 0 events
call 2, 1 of 2 turns: 2:89
  2 six.run: done after 178 events
' '' 89 2 two.run alone.run six.run
    # By the log 15 events: three watches and three heartbeats at tick 2, and at tick 3 three times O, R and H.
    prints 0 'call 1, 5 of 9 turns: 0:5 1:5 0:3 1:5 1:5
  0 two.run: done after 8 events
  1 short.run: done after 15 events
' '' 5 9 two.run short.run
}

refusals() {
    usage='usage: dispatch LENGTH TURNS FILE .., with 1 to 8 files\n'
    prints 1 '' "$usage"
    prints 1 '' "$usage" 50 9
    prints 1 '' "$usage" 50 9 two.run two.run two.run two.run two.run two.run two.run two.run two.run
    for number in 0 -1 +1 '' ' 1' 1.0 1x 1000000000000000000; do
        prints 1 '' "$usage" "$number" 9 two.run
        prints 1 '' "$usage" 50 "$number" two.run
    done
    prints 1 '' 'dispatch: 15,0\n' 1001 9 two.run
    prints 1 '' 'nothing.run: No such file or directory\n' 50 9 two.run nothing.run
    prints 1 '' '.: Is a directory\n' 50 9 . two.run
    : > "$runs/empty.run"
    prints 1 '' 'empty.run: 1,0\n' 50 9 empty.run two.run
    head -c 65537 /dev/zero > "$runs/long.run"
    prints 1 '' 'long.run: 1,0\n' 50 9 two.run long.run
    printf 'P,6,5,27,2,90\nC,35,2\nC,30,1\n' > "$runs/falling.run"
    prints 1 '' 'falling.run: 5,3\n' 50 9 two.run falling.run
    [ ! -e /dev/full ] || ! "$dispatch" 50 9 "$runs/two.run" > /dev/full || fail 'output that cannot be written is passed over'
}

# What stands in README.md under the command for three files.
readme() {
    grep -q '^    target/dispatch 100 9 target/full.run docs/rehearsal.run tests/worked.run$' README.md || fail 'README.md has another command'
    sed -n 's/^    \(echo P,[0-9,]* > target\/full.run\)$/\1/p' README.md > "$out/turns-readme.sh"
    sh "$out/turns-readme.sh"
    sed -n '/^    call 1, /,/^$/s/^    //p' README.md > "$out/turns-expected"
    timeout 60 "$dispatch" 100 9 target/full.run docs/rehearsal.run tests/worked.run > "$out/turns-printed" || [ $? -eq 1 ]
    cmp "$out/turns-expected" "$out/turns-printed"
}

rehearsal_program
library planner
c "$dispatch" -std=c99 -pedantic include/dispatch.c "$library"
files
outputs
readme
refusals
python3 tests/turns.py --against "$dispatch" "$runs" "$seed" "$count"
if command -v g++ > /dev/null; then
    g++ -x c++ -std=c++11 -Wall -Wextra -Werror -O2 -Iinclude include/dispatch.c -x none "$library" -o "$dispatch"
    outputs
fi
echo "turns: the dispatcher's program prints the turns that the logs say; seed $seed, $count sets of files"
