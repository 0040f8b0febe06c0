#!/bin/sh
# Holds the platform's definitions against the simulator: the log that they give of small random run files, a third of them with W below
# H + D, of one in which a node leaves its emitter by report, of one in which a heartbeat names a node of which no report comes and of one in
# which a short W leaves all nodes alone, computed by the checker in a copy of the crates that it takes, has the bytes that the simulator writes.
#
# Usage: tests/model.sh [SEED [COUNT]]

. "$(dirname "$0")/common.sh"

seed=${1:-$usual_seed}
count=${2:-30}

# below CRATE: the crates that it uses, at any depth, and itself.
below() {
    awk -v crate="$1" '
        function visit(crate,    names, count, i) {
            if (!(crate in uses) || crate in seen) return
            seen[crate]
            count = split(uses[crate], names, " ")
            for (i = 1; i <= count; i++) visit(names[i])
            print crate
        }
        { sub(/#.*/, "") }
        split($0, parts, ":") == 2 { uses[parts[1]] = parts[2] }
        END { visit(crate) }' crates.txt
}

# check FOLDER: proves the crate `edges` of a copy of the repository, and before it the crates below that are not built there.
check() {
    (cd "$1/crates/edges" && rt check)
}

# The crates below are built here, and taken over by the copy as they are.
simulator
quietly check .
copy=$(mktemp -d)
trap 'rm -rf "$copy"' EXIT
for crate in $(below edges); do
    grep "^$crate:" crates.txt >> "$copy/crates.txt"
    mkdir -p "$copy/crates/$crate/out"
    for part in src specs proofs out/rlib; do
        [ ! -e "crates/$crate/$part" ] || cp -R "crates/$crate/$part" "$copy/crates/$crate/$part"
    done
done
named='tests/reported-ten.run tests/learnt.run tests/short.run'
python3 tests/model.py "$out/simulate" crates/edges "$seed" "$count" $named > "$copy/crates/edges/proofs/Simulated.antt" 2> "$copy/ends"
read -r e f < "$copy/ends" || fail 'the logs are not counted'
[ "$f" -gt $((count / 4)) ] && [ "$e" -gt "$f" ] || fail "$e of the logs end in E, $f in F"
echo 'pub mod Simulated' >> "$copy/crates/edges/proofs/Lib.antt"
if ! check "$copy" > "$copy/model.log" 2>&1 || ! grep -q '^logic=proved' "$copy/model.log"; then
    grep -v '^note' "$copy/model.log" | cut -c 1-300 | tail -n 40 >&2
    fail "seed $seed: the definitions and the simulator differ"
fi
echo "model: seed $seed, the logs of $count files and of $named agree; $e end in E, $f in F"
