#!/bin/sh
# The size of each crate in lines: its code, its definitions, its laws, the proofs of its functions, and its must-fail edits.
#
# Usage: tools/sizes.sh, which writes a table. `python3 tools/figures.py --sizes` puts it into docs/FIGURES.md.

set -eu

cd "$(dirname "$0")/.."

lines() {
    cat /dev/null "$@" | wc -l
}

# files PATTERN..: the crate's files of that path, without what the kit makes in out/.
files() {
    find "$at" -path "$at/out" -prune -o -path "$@" -print
}

row() {
    printf '| %s | %d | %d | %d | %d | %d |\n' "$@"
}

echo '| Crate | Code | Definitions | Laws | Functions'"'"' proofs | Edits |'
echo '|---|---|---|---|---|---|'
all_code=0 all_specs=0 all_laws=0 all_proofs=0 all_edits=0
for crate in $(sed -n 's/^\([a-z0-9_]*\)\( staticlib\)\{0,1\}:.*/\1/p' crates.txt); do
    at=crates/$crate
    code=$(lines $(files '*/src/*.rt'))
    specs=$(lines $(files '*/specs/*.antt'))
    laws=$(lines $(files '*/proofs/*.antt' ! -path '*/proofs/*/*'))
    proofs=$(lines $(files '*/proofs/*/*.antt'))
    edits=$(files '*/must-fail/*.edit' | wc -l)
    row "$crate" "$code" "$specs" "$laws" "$proofs" "$edits"
    all_code=$((all_code + code)) all_specs=$((all_specs + specs)) all_laws=$((all_laws + laws))
    all_proofs=$((all_proofs + proofs)) all_edits=$((all_edits + edits))
done
row all "$all_code" "$all_specs" "$all_laws" "$all_proofs" "$all_edits"
