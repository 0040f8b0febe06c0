#!/bin/sh
# The must-fail edits: each says in its first line what it would break, changes code or definitions and no proof, and is refused because
# a fact fails, not because a proof file no longer fits the code. `rt must-fail` tries those again of which what they stand on has changed
# since it, or the gate, tried them last.
#
# Usage: tests/edits.sh [CRATE..], all crates where none is named; of a named one each edit's first error is shown.

. "$(dirname "$0")/common.sh"

log=$out/edits.log
tried=0
told=0

tell() {
    echo "edits: $1" >&2
    told=1
}

# edit CRATE LABEL
edit() {
    file=crates/$1/must-fail/$2.edit
    tried=$((tried + 1))
    head -n 1 "$file" | grep -q '^# ' || tell "$1/$2: its first line is no comment"
    ! grep -q '^file: proofs/' "$file" || tell "$1/$2: it changes a proof"
    said=$(sed -n "s|^rt: must-fail $1/$2\.edit: ||p" "$log")
    # the first error, as much of it as `rt` shows
    first=${said#refused, as it must be}
    [ -z "$shown" ] || echo "$1/$2${first#:}"
    case $said in
    '') tell "$1/$2: not tried" ;;
    'refused, as it must be') tell "$1/$2: refused with no error, only because a proof file lacks the invariant or the measure of a loop" ;;
    'refused, as it must be (only because'* | *'is not in scope'* | *'has no field'* | *'has no `'* | *'was not admitted'* | *'type to bind, but the signature'*)
        tell "$1/$2: refused only because a proof file no longer fits: $first"
        ;;
    'refused, as it must be (only by a limit'*) tell "$1/$2: refused only by a limit of the prover: $first" ;;
    'refused, as it must be: '*) ;;
    *) tell "$1/$2: $said" ;;
    esac
}

status=0
rt must-fail "$@" > "$log" 2>&1 || status=$?
shown=$*
[ $# -gt 0 ] || set -- $(ls crates)
for crate in "$@"; do
    for path in crates/"$crate"/must-fail/*.edit; do
        [ ! -f "$path" ] || edit "$crate" "$(basename "$path" .edit)"
    done
done
[ "$told" -eq 0 ] && [ "$status" -eq 0 ] || {
    grep -v '^rt: must-fail .*: refused, as it must be' "$log" | tail -n 30 >&2
    fail "status $status of rt must-fail"
}
echo "edits: $tried edits, each refused by a fact that fails"
