#!/bin/sh
# Tests the calls of a rehearsal in C through the static library: tests/planner.c calls all five, tests/log_loop.c runs the loop
# of the header that writes a log, and the planner's program of include/ is compiled from the header alone. What it writes is
# compared with fixed tables, and with those that tests/planner.py computes from the rehearsal program's logs. Stops at the
# first failure.
#
# Usage: tests/planner.sh [SEED [COUNT]]

. "$(dirname "$0")/common.sh"

seed=${1:-$usual_seed}
count=${2:-60}
library=target/staticlib/libplanner.a
planner=$out/planner-c

# prints STATUS OUTPUT ERRORS [ARGUMENT ..]: what the planner's program writes of the run file on standard input, and how it ends.
prints() {
    expected=$1
    printf "$2" > "$out/planner-expected"
    printf "$3" > "$out/planner-expected-errors"
    shift 3
    status=0
    "$planner" "$@" > "$out/planner-table" 2> "$out/planner-errors" || status=$?
    cmp "$out/planner-expected" "$out/planner-table"
    cmp "$out/planner-expected-errors" "$out/planner-errors"
    [ "$status" -eq "$expected" ] || fail "status $status instead of $expected"
}

# agrees [ARGUMENT ..]: the table of the run file on standard input is that of the rehearsal program's logs.
agrees() {
    cat > "$out/planner.run"
    "$planner" "$@" < "$out/planner.run" > "$out/planner-table" || [ $? -eq 1 ]
    python3 tests/planner.py "$@" < "$out/planner.run" | cmp - "$out/planner-table"
}

# crashes TICK FIRST LAST: C lines for neighbours at one tick.
crashes() {
    for node in $(seq "$2" "$3"); do echo "C,$1,$node"; done
}

# dealt: a Q line for six shelves of eight nodes, dealt like cards: the first of each shelf, then the second of each, and so on.
dealt() {
    echo "Q,$(for place in 0 1 2 3 4 5 6 7; do seq -s, "$place" 8 47; done | paste -sd, -)"
}

# delays FIRST LAST: L lines of delay 1.
delays() {
    for number in $(seq "$1" "$2"); do echo "L,$number,1"; done
}

six_nodes='P,6,5,27,2,90\nC,30,1\nC,35,2\n'
usage='usage: planner [--each] [W ..] < RUN-FILE\n'
head='     W     worst   shift      best   shift     bound\n'
head_each='     W     ticks   shift     bound\n'
figures='first: tick at which a live node is first listed, live: the most at one time, false: events that list one'
short="$figures; of the worst\n     W     worst   shift      best   shift     bound     first    live   false\n"
short_each="$figures\n     W     ticks   shift     bound     first    live   false\n"
quiet="No node crashes: each node that is listed lives\n$figures\n     W     first    live   false\n"
full='8,0: more than 2,048 messages would be in flight'
lists='Ticks from the last crash until every survivor lists'
shifted=', with the crashes shifted by 0 to'
bad_form='letter, number of fields, digits, line feed or order of the letters\n'
bad_number='a number out of range, a node not below N, or a crash after the end tick\n'
bad_order='C or L lines do not rise, or a node crashes twice\n'
bad_ring='the Q line does not name each node once\n'

tables() {
    printf 'P,6,5,17,2,90\nC,30,1\nC,35,2\n' | prints 0 "$lists 1-2$shifted 4 ticks\n$head\
     7        26       1         8       0        51
    12        41       1        37       0        71
    17   not yet       1        52       0        91  0 lacks 1 at the end tick, after 54 ticks
" ''
    printf 'P,6,5,17,2,150\nC,30,1\nC,35,2\n' | prints 0 "$lists 1-2$shifted 4 ticks\n$head\
     7        26       1         8       0        51
    12        41       1        37       0        71
    17        56       1        52       0        91
" ''
    printf "$six_nodes" | prints 0 "$lists 1-2$shifted 4 ticks\n$head\
     7        26       1         8       0        51
    12        41       1        37       0        71
    17   not yet       1        52       0        91  0 lacks 1 at the end tick, after 54 ticks
    22   not yet       0   not yet       0       111  0,3-5 lack 1 at the end tick, after 55 ticks
    27   not yet       0   not yet       0       131  0,3-5 lack 1 at the end tick, after 55 ticks
" ''
    printf "$six_nodes" | prints 0 "$lists 1-2$shifted 4 ticks\n$head_each\
    17        52       0        91
    17   not yet       1        91  0 lacks 1 at the end tick, after 54 ticks
    17   not yet       2        91  0 lacks 1 at the end tick, after 53 ticks
    17   not yet       3        91  0 lacks 1 at the end tick, after 52 ticks
    17   not yet       4        91  0 lacks 1 at the end tick, after 51 ticks
" '' --each 17
    { echo P,48,100,120,20,3000; crashes 300 10 17; } | prints 0 "$lists 10-17$shifted 99 ticks\n$head\
   120      1919       1      1820       0      6620\n" ''
    # A shelf, in number order, whether the file says so or not, and dealt.
    for ring in '' "Q,$(seq -s, 0 47)\n"; do
        { printf "P,48,100,120,20,3000\n$ring"; crashes 300 8 15; } | prints 0 "$lists 8-15$shifted 99 ticks\n$head\
   120      1919       1      1820       0      6620\n" ''
    done
    { echo P,48,100,120,20,3000; dealt; crashes 300 8 15; } | prints 0 "$lists 8-15$shifted 99 ticks\n$head\
   120       219       1       120       0      6620\n" ''
    # No report of node 0 reaches node 4, and a heartbeat does. The file's own W is the last, also where the steps of H pass over it.
    printf 'P,5,3,9,4,292\nC,32,0\nC,32,2\nC,32,3\n' | prints 0 "$lists 0,2-3$shifted 2 ticks\n$head\
     7        32       2        30       1        53
     9        38       2        36       1        65
" ''
    printf 'P,2,2,3,1,6\nC,3,1\n' | prints 0 "$lists 1$shifted 1 ticks\n$head     3         3       0         2       1         7\n" ''
}

# Time-outs below H + D. Every message takes D, so at tick W every watch expires: live nodes list each other.
short_time_outs() {
    lacks='0 lacks 1 at the end tick'
    printf "$six_nodes" | prints 0 "$lists 1-2$shifted 4 ticks\n$short\
     4     false       0     false       0      none         4       6      30
     5     false       0     false       0      none         5       6      30
     6     false       0     false       0      none         6       6      30
     7        26       1         8       0        51     never       0       0
    17   not yet       1        52       0        91     never       0       0  $lacks, after 54 ticks
" '' 4 5 6 7 17
    # The order in which they are given; without any, the file's own and then H + D.
    printf "$six_nodes" | prints 0 "$lists 1-2$shifted 4 ticks\n$short\
     7        26       1         8       0        51     never       0       0
     6     false       0     false       0      none         6       6      30
     7        26       1         8       0        51     never       0       0
     1     false       0     false       0      none         1       6      30
" '' 7 6 7 1
    for own in 1 6; do
        printf "P,6,5,$own,2,90\nC,30,1\nC,35,2\n" | prints 0 "$lists 1-2$shifted 4 ticks\n$short\
     $own     false       0     false       0      none         $own       6      30
     7        26       1         8       0        51     never       0       0
" ''
    done
    # By hand, from the log. At tick 2 nodes 0, 1 and 2 list 2, 0 and 1. At tick 3 reports come to all three. With a
    # crash at tick 3, before them, that of 0 makes node 2 list a live node, that of 1 comes to node 0 when 1 has
    # crashed, and that of 2 is dropped at node 1: 3 + 1 false events. With a crash at tick 4 there are 3 + 3. All three
    # nodes are listed by tick 2.
    printf 'P,3,2,2,1,12\nC,3,1\n' | prints 0 "$lists 1$shifted 1 ticks\n$short_each\
     2     false       0      none         2       3       4
     2     false       1      none         2       3       6
     3         4       0        10     never       0       0
     3         3       1        10     never       0       0
" '' --each
}

# Quick messages, with which a short W does until one is late.
late_messages() {
    # By hand, from the log of shift 3. The first heartbeat of node 0 is late: at tick 5 node 1 lists 0, and crashes at
    # tick 6, after which no live node lists one. At tick 7 a report of 0 comes to node 2. At tick 10 node 0 lists 2,
    # which lives, and node 2 lists 1, which has crashed. So the false events are at ticks 5, 7 and 10, and from tick 10
    # on the live nodes 0 and 2 are both listed. With earlier crashes no live node watches 0.
    late='P,3,4,6,2,13\nC,3,1\nL,0,2\nL,1,1\nL,2,1\n'
    printf "$late" | prints 0 "$lists 1$shifted 3 ticks\n$short\
     5     false       3         3       1      none         5       2       3
     6         8       2         4       1        20     never       0       0
" '' 5 6
    printf "$late" | prints 0 "$lists 1$shifted 3 ticks\n$short_each\
     5         4       0      none     never       0       0
     5         3       1      none     never       0       0
     5         7       2      none     never       0       0
     5     false       3      none         5       2       3
" '' --each 5
    { printf 'P,3,3,4,3,14\nC,8,1\n' && delays 0 4 && echo L,5,2; } | prints 0 "$lists 1$shifted 2 ticks\n$short\
     5   not yet       0   not yet       0      none     never       0       0  0 lacks 1 at the end tick, after 6 ticks
     4         6       0         4       2      none     never       0       0
     3     false       0     false       0      none         3       3       6
" '' 5 4 3
    # By hand, from the log. At tick 4 node 0 lists 3, at tick 5 node 0 crashes and node 3 lists 2, which crashes at
    # tick 6: two false events, but never two nodes that live ones list.
    { printf 'P,4,1,2,4,10\nC,1,1\nC,5,0\nC,6,2\n'; delays 0 7; } | prints 0 "$lists 0-2$shifted 0 ticks\n$short\
     2     false       0     false       0      none         4       1       2
" '' 2
    # By hand, from the log of shift 0. Nodes 1 to 3 list live ones at tick 4, four times at tick 8, twice at tick 12.
    # At tick 16 a heartbeat brings node 0 the live nodes 1 and 2, which is one event.
    { printf 'P,5,3,4,4,16\nC,6,4\nL,0,2\n'; delays 1 4; } | prints 0 "$lists 4$shifted 2 ticks\n$short\
     4     false       0     false       0      none         4       3       8
" '' 4
    # README's 48 nodes: of the first heartbeats one takes D, the others a tick less.
    { echo P,48,100,120,20,6000; crashes 300 8 15; seq -f 'L,%g,19' 0 46; } | prints 1 "$lists 8-15$shifted 99 ticks\n$short\
    60   refused       0   refused       0      none        60      48     398  $full, after tick 99
   118   refused       0   refused       0      none       118      48     398  $full, after tick 158
   119     false      80     false       0      none       119      40    1506
   120      1919       1      1820       0      6620     never       0       0
" '' 60 118 119 120
}

# From good to bad: ticks, not yet, false, refused. Of two false ones the worse has more live nodes, then more false
# events, then the earlier first tick; of equal ones the first shift stands in the row.
worst_and_best() {
    printf 'P,3,4,5,2,11\nC,5,2\nL,0,1\nL,1,2\nL,2,1\n' | prints 0 "$lists 2$shifted 3 ticks\n$short\
     5     false       1   not yet       0      none         5       2       3
" '' 5
    { printf 'P,4,3,4,3,19\nC,3,2\nC,5,3\n'; delays 0 2; echo L,3,3; delays 4 7; } > "$out/planner-few.run"
    prints 0 "$lists 2-3$shifted 2 ticks\n$short_each\
     4     false       0      none         8       2       2
     4     false       1      none         4       1       3
     4     false       2      none         4       1       3
" '' --each 4 < "$out/planner-few.run"
    prints 0 "$lists 2-3$shifted 2 ticks\n$short\
     4     false       0     false       1      none         8       2       2
" '' 4 < "$out/planner-few.run"
    printf 'P,4,3,4,2,20\nC,15,0\nL,0,2\nL,1,1\nL,2,1\nL,3,1\n' | prints 0 "$lists 0$shifted 2 ticks\n$short_each\
     4     false       0      none         4       2       8
     4     false       1      none         4       3       8
     4     false       2      none         4       3       9
" '' --each 4
    printf 'P,4,3,4,2,20\nC,15,0\nL,0,2\nL,1,1\nL,2,1\nL,3,1\n' | prints 0 "$lists 0$shifted 2 ticks\n$short\
     4     false       2     false       0      none         4       3       9
" '' 4
    printf 'P,3,4,6,4,11\nC,3,0\nL,0,1\nL,1,4\nL,2,1\n' | prints 0 "$lists 0$shifted 3 ticks\n$short_each\
     6     false       0      none        11       1       1
     6     false       1      none        11       1       1
     6     false       2      none         6       1       1
     6     false       3      none         6       1       1
" '' --each 6
    printf 'P,3,4,6,4,11\nC,3,0\nL,0,1\nL,1,4\nL,2,1\n' | prints 0 "$lists 0$shifted 3 ticks\n$short\
     6     false       2     false       0      none         6       1       1
" '' 6
}

# Rehearsals that end in 8,0, and files that are refused, of which nothing is rehearsed.
short_and_refused() {
    { echo P,48,100,119,20,3000; crashes 300 8 15; } | prints 1 "$lists 8-15$shifted 99 ticks\n$short\
    60   refused       0   refused       0      none        60      48     398  $full, after tick 100
   119   refused       0   refused       0      none       119      48     398  $full, after tick 159
   120      1919       1      1820       0      6620     never       0       0
" '' 60 119 120
    lack='0-7,16-47 lack 8-11 at the end tick'
    { echo P,48,20,39,20,400; crashes 100 8 15; delays 0 2047; } | prints 1 "$lists 8-15$shifted 19 ticks\n$short\
    22   refused       0     false       1      none       343      39     446  $full, after tick 383
    25     false       0     false       1      none       366      39     262
    39   not yet       0   not yet       0      none     never       0       0  $lack, after 300 ticks
" '' 22 25 39
    printf 'P,48,2,12,11,200\nC,90,3\nC,90,4\n' | prints 1 "$lists 3-4$shifted 1 ticks\n$short_each\
    12   refused       0      none        12      48     336  $full, after tick 23
    12   refused       1      none        12      48     336  $full, after tick 23
    13       103       0       648     never       0       0
    13       104       1       648     never       0       0
" '' --each
    # A long W is known to list no live node. Of a short one all is rehearsed, also what comes when all know.
    printf 'P,64,1,35,33,200\nC,90,3\n' | prints 1 "$lists 3$shifted 0 ticks\n$short\
    33   refused       0   refused       0      none     never       0       0  $full, after tick 32
    34   refused       0   refused       0      2209     never       0       0  $full
" '' 33 34
    known='P,10,1,255,255,3000\nC,0,4\n'
    { printf "$known"; delays 0 349; delays 2300 2399; } | prints 1 "$lists 4$shifted 0 ticks\n$short\
   255   refused       0   refused       0      none     never       0       0  $full, after tick 277
   256       258       0       258       0      2815     never       0       0
" ''
    printf 'P,6,5,6,2,89\nC,30,1\nC,87,2\n' | prints 1 "$lists 1-2$shifted 4 ticks\n$short\
     6   refused       3     false       0      none         -       -       -  3,3: $bad_number\
     7   refused       3   not yet       0        51         -       -       -  3,3: $bad_number\
     0   refused       0   refused       0      none         -       -       -  3,1: $bad_number\
 65536   refused       0   refused       0      none         -       -       -  3,1: $bad_number" '' 6 7 0 65536
}

no_crash() {
    # By hand, from the log. At tick 2 nodes 0, 1 and 2 list 2, 0 and 1. At tick 3 a report comes to each of them, by
    # which they list 1, 2 and 0.
    printf 'P,3,2,2,1,8\n' | prints 0 "$quiet     2         2       3       6\n     3     never       0       0\n" ''
    for option in '' --each; do
        printf 'P,6,5,27,2,90\n' | prints 0 "$quiet\
     6         6       6      30
     1         1       6      30
     7     never       0       0
" '' $option 6 1 7
    done
    printf 'P,1,1,1,1,5\n' | prints 0 "$quiet     1     never       0       0\n     2     never       0       0\n" ''
    printf 'P,48,2,12,11,200\n' | prints 1 "$quiet\
    12        12      48     336  $full, after tick 23
    13     never       0       0
" ''
    printf 'P,64,1,33,33,200\n' | prints 1 "$quiet\
    33     never       0       0  $full, after tick 32
    34     never       0       0  $full
     0         -       -       -  3,1: $bad_number\
 65536         -       -       -  3,1: $bad_number" '' 33 34 0 65536
}

logs() {
    { echo P,48,100,120,20,3000; crashes 300 10 17; } | agrees --each
    { echo P,64,20,61,11,5000; crashes 90 60 63; crashes 140 0 5; delays 100 900; } | agrees
    printf 'P,64,2,9,1,2000\nC,1200,31\n' | agrees 9
    { echo P,48,100,120,20,3000; dealt; crashes 300 6 13; delays 100 900; } | agrees --each
    printf "$six_nodes" | agrees --each 6 7 300 65536 999999999
    { echo P,48,20,39,20,400; crashes 100 8 15; delays 0 2047; } | agrees --each 22 25 40
    printf 'P,8,4,7,5,200\nC,30,3\n' | agrees --each 1 8 5
    # The same ticks at two shifts: the first of them stands in the row.
    printf 'P,8,3,6,2,200\nC,18,3\nC,22,0\nC,22,7\nC,25,4\nC,32,5\n' | agrees 5
    printf 'P,6,3,5,1,134\nC,21,3\nC,32,2\nC,34,5\n' | agrees 4
    # An event that is refused soon after all know.
    { echo P,10,1,256,255,3000; echo C,0,4; delays 0 349; delays 2300 2399; } | agrees
    tail -n 1 "$out/planner-table" | grep -q ' 258 ' || fail 'what is known before an event is refused is not told'
    python3 tests/planner.py --against "$planner" "$seed" "$count"
}

refusals() {
    prints 1 '' '1,0: the file is empty or longer than 65,536 bytes\n' < /dev/null
    head -c 65537 /dev/zero | prints 1 '' '1,0: the file is empty or longer than 65,536 bytes\n'
    printf 'P,6,5,27,2,90\r\n' | prints 1 '' "2,1: $bad_form"
    printf 'P,6,5,27,2,90\nC,91,1\n' | prints 1 '' "3,2: $bad_number"
    printf 'P,6,5,27,2,90\nC,35,2\nC,30,1\n' | prints 1 '' "5,3: $bad_order"
    { echo P,6,5,27,2,90; delays 0 2048; } | prints 1 '' '6,2050: more than 2,048 L lines\n'
    printf 'P,6,5,27,2,90\nQ,0,1,2,3,4,0\nC,30,1\n' | prints 1 '' "13,2: $bad_ring"
    printf 'P,6,5,27,2,90\nQ,0,1,2,3,4,6\nC,30,1\n' | prints 1 '' "3,2: $bad_number"
    printf 'P,6,5,27,2,90\nC,30,1\nQ,0,1,2,3,4,5\n' | prints 1 '' "2,3: $bad_form"
    printf 'P,64,1,35,33,200\nC,90,3\n' | prints 1 "$lists 3$shifted 0 ticks\n$head\
    34   refused       0   refused       0      2209  8,0: more than 2,048 messages would be in flight
    35   refused       0   refused       0      2211  8,0: more than 2,048 messages would be in flight
" ''
    printf 'P,6,5,27,2,89\nC,30,1\nC,87,2\n' | prints 1 "$lists 1-2$shifted 4 ticks\n$head_each\
    27   not yet       0       131  0,3-5 lack 2 at the end tick, after 2 ticks
    27   not yet       1       131  0,3-5 lack 2 at the end tick, after 1 ticks
    27   not yet       2       131  0,3-5 lack 2 at the end tick, after 0 ticks
    27   refused       3       131  3,3: $bad_number    27   refused       4       131  3,3: $bad_number" '' --each 27
    printf 'P,6,5,27,2,89\nQ,5,3,1,4,2,0\nC,86,1\nC,86,2\n' | prints 1 "$lists 1-2$shifted 4 ticks\n$head\
    27   refused       4   not yet       0       131  3,3: $bad_number" '' 27
}

nothing_to_tell() {
    printf 'P,1,1,2,1,5\n' | prints 1 '' 'nothing to rehearse: no node crashes\n'
    printf 'P,6,5,27,2,90\n' | prints 1 '' 'nothing to rehearse: no node crashes\n'
    printf 'P,6,5,6,2,90\n' | prints 1 '' 'nothing to rehearse: no node crashes\n' --each 7 65536
    printf 'P,1,1,2,1,5\nC,3,0\n' | prints 1 '' 'nothing to rehearse: no node survives\n'
    printf 'P,2,2,3,1,6\nC,3,0\nC,3,1\n' | prints 1 '' 'nothing to rehearse: no node survives\n'
    printf 'P,2,2,2,1,6\nC,3,0\nC,3,1\n' | prints 1 '' 'nothing to rehearse: no node survives\n'
}

wrong_use() {
    for argument in --w -7 +7 7, '' ' 7' 7.0 1000000000; do
        printf "$six_nodes" | prints 1 '' "$usage" "$argument"
        printf "$six_nodes" | prints 1 '' "$usage" --each 7 "$argument"
    done
    printf "$six_nodes" | prints 1 '' "$usage" 7 --each
    ! "$planner" < . > "$out/planner-table" 2> "$out/planner-errors" || fail 'input that cannot be read is passed over'
    [ ! -s "$out/planner-table" ] && grep -q '^planner: ' "$out/planner-errors" || fail 'input that cannot be read is not told'
    [ ! -e /dev/full ] || ! printf "$six_nodes" | "$planner" > /dev/full || fail 'output that cannot be written is passed over'
    [ ! -e /dev/full ] || ! printf 'P,3,2,2,1,8\n' | "$planner" > /dev/full || fail 'output that fails is passed over'
}

# same_log: the header's loop writes the rehearsal program's log of the run file on standard input.
same_log() {
    cat > "$out/log-loop.run"
    "$rehearse" < "$out/log-loop.run" > "$out/log-loop-expected"
    timeout 60 "$out/log-loop" < "$out/log-loop.run" > "$out/log-loop-written" || fail "the header's loop does not end"
    cmp "$out/log-loop-expected" "$out/log-loop-written"
}

# Logs that end in E, in F and in 8,0, and a refused file: the loop ends with each.
header_loop() {
    sed -n '/^ \*     uint8_t store\[KELBRAUT_STORE\]/,/^ \*$/s/^ \*//p' include/kelbraut.h > "$out/log_loop.inc"
    c "$out/log-loop" -I"$out" tests/log_loop.c "$library"
    for file in tests/worked.run docs/rehearsal.run docs/short.run; do
        same_log < "$file"
    done
    tail -n 1 "$out/log-loop-written" | grep -q '^F,34,4,1,' || fail 'the log of docs/short.run does not end in F'
    echo P,48,100,119,20,300 | same_log
    [ "$(tail -n 1 "$out/log-loop-written")" = 8,0 ] || fail 'no event of 48 nodes with a short time-out is refused'
    echo P,65,1,2,1,5 | same_log
}

rehearsal_program
library planner
c "$out/planner-calls" tests/planner.c "$library"
"$out/planner-calls"
header_loop
c "$planner" include/planner.c "$library"
tables
short_time_outs
late_messages
worst_and_best
short_and_refused
no_crash
refusals
nothing_to_tell
wrong_use
logs
echo "planner: the calls from C and the planner's program do as they should; seed $seed, $count files"
