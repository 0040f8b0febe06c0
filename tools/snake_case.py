#!/usr/bin/env python3
"""Spells the definitions and lemmas of this repository as today's Rattle spells words: `mostNodes` becomes `most_nodes`.

usage: tools/snake_case.py    at the top of the repository, once, on what port.py has left

It takes each name in the crates' specs/ and proofs/ that begins small and has a capital inside: a definition, a lemma, a field, a constructor, a
variable. The library has none such. The hyphen of a lemma's name stays, as in the library's own: `backBy-below` becomes `back_by-below`.
Types and modules keep their capitals.
Nine lemmas whose name would fall together with that of a definition get their hyphens back: `out_of_range` becomes `out-of-range`.
A name turns where it stands as a whole word: in .antt files, and if it is longer than three letters in .rt files, must-fail edits and the pages.
Functions, exported names and strings have no such names, and nothing else is touched. A second run changes nothing. It stops, and writes nothing, where two names would fall together.
"""

import glob
import re
import sys

WORD = r'[^\s(){}.;,@"«»\[\]`·|/:\\*]+'
MARKS = r"(?:(?:abbrev|unfoldable|opaque|pub|mutual|data|record)\s+)*"
DECLARED = re.compile(rf"^\s*{MARKS}({WORD})\s*(?:\{{[^}}]*\}}\s*|\([^)]*\)\s*)*:\s", re.M)
INSIDE = re.compile(r"(?<=[a-z0-9'])([A-Z])")
COMMENT = re.compile(r"(?:^|(?<=\s))--.*$", re.M)

# Lemmas of this repository, in the spelling that port.py gave them, whose name is a definition's from now on.
LEMMAS = "line_taken turned_down goes_on out_of_range too_many passed_over row_put row_out list_at".split()

# The library's word in two lemmas' names.
WORDS = {"getD-in": "get_or-in", "getD-numbers": "get_or-numbers"}


def read(path):
    with open(path, encoding="utf-8") as f:
        return f.read()


def snake(name):
    return WORDS.get(name) or INSIDE.sub(lambda m: "_" + m[1].lower(), name)


def files(*patterns):
    return sorted(p for it in patterns for p in glob.glob(it, recursive=True) if "/out/" not in p)


def main():
    proofs = files("crates/*/specs/**/*.antt", "crates/*/proofs/**/*.antt")
    codes = {p: COMMENT.sub("", read(p)) for p in proofs}
    declared = {it for code in codes.values() for it in DECLARED.findall(code)}
    words = {it for code in codes.values() for it in re.findall(WORD, code)}
    turned = {it: snake(it) for it in words if it[0].islower() and snake(it) != it}
    if not turned:
        return 0
    table = {**{it: it.replace("_", "-") for it in LEMMAS}, **turned}
    both = [new for new in table.values() if new in declared and new not in LEMMAS]
    both += [new for new in set(table.values()) if list(table.values()).count(new) > 1]
    both += [it for it in LEMMAS if it in words and it not in declared]
    if both:
        print("these names would fall together: " + ", ".join(sorted(set(both))), file=sys.stderr)
        return 2
    for path in files("crates/**/*.antt", "crates/**/*.rt", "crates/*/must-fail/*.edit", "*.md", "docs/**/*.md"):
        old = read(path)
        has = table if path.endswith(".antt") else {it: new for it, new in turned.items() if len(it) > 3}
        quoted = r'"[^"\n]*"|' if path.endswith(".antt") else ""
        new = re.sub(quoted + WORD, lambda m: has.get(m[0], m[0]), old)
        if new != old:
            with open(path, "w", encoding="utf-8") as f:
                f.write(new)
    print(f"{len(turned)} names")
    return 0


if __name__ == "__main__":
    sys.exit(main())
