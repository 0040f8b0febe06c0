#!/usr/bin/env python3
"""Counts the places in crates/*/src that docs/DESIGN-PASS.md speaks of, point by point; with a point's number it lists them too.

    python3 tools/places.py [POINT]
"""
import collections
import pathlib
import re
import sys

TOP = pathlib.Path(__file__).resolve().parent.parent
FILES = sorted(TOP.glob("crates/*/src/*.rt"))
REFUSALS = r"\b(BAD_[A-Z]+|OUT_OF_RANGE|NOT_RISING|MANY_DELAYS|TOO_MANY|SHORT_PART|NOT_EACH_ONCE|ACCEPTED)\b"
BY_HAND = r"\bfn (wide|more|is_digit|hex_value|hex_byte|put_number|last_digit|put_hex|follows|crash_rises|lesser|greater|copy|digit|pack|unpack|" \
    r"word_of|kind_in|from_in|to_in|subject_in|read_node|read_record|copy_rows|is_kind)\b"
BUFFERS = r"\bat: usize|\bcount: usize|&mut \[u64\]|: \[[A-Za-z0-9]+; (7|8|6|64)\]"


def code_lines():
    """Each line that is no comment, with its place."""
    for path in FILES:
        for number, line in enumerate(path.read_text().splitlines(), 1):
            if not line.lstrip().startswith("//"):
                yield f"{path.relative_to(TOP)}:{number}", line


def lines_with(pattern):
    return [f"{place}: {line.strip()}" for place, line in code_lines() if re.search(pattern, line)]


def functions():
    """Each function: its place, its name, its head up to the body and its body."""
    for path in FILES:
        text = path.read_text()
        for found in re.finditer(r"^( *)(?:pub )?(?:extern \"C\" )?fn (\w+)", text, re.M):
            end = re.search(rf"^{found.group(1)}}}$", text[found.start():], re.M)
            if not end:
                continue
            whole = text[found.start():found.start() + end.end()]
            at = re.search(rf"(^{found.group(1)}{{$)|(\) (-> .*)?{{$)", whole, re.M)
            at = at.start() if at else len(whole)
            number = text.count("\n", 0, found.start()) + 1
            yield f"{path.relative_to(TOP)}:{number}", found.group(2), whole[:at], whole[at:]


def twins():
    """Functions of four lines or more whose bodies differ in constants, numbers and the functions that they call alone."""
    shapes = collections.defaultdict(list)
    for place, name, head, body in functions():
        if body.count("\n") < 4:
            continue
        shape = re.sub(r"[\w:]+(?=\()", "f", body)
        shape = re.sub(r"\b[A-Za-z_]\w*\b|\b\d\w*\b", "x", shape)
        shapes[re.sub(r"\s+", " ", shape)].append(f"{place}: {name}")
    return [" = ".join(group) for group in shapes.values() if len(group) > 1]


def repeated():
    """Facts that stand in the contracts of three functions or more, and three parameters or more that stand together in three or more."""
    facts, groups = collections.defaultdict(set), collections.defaultdict(set)
    for place, name, head, body in functions():
        for clause in re.findall(r"requires(?: \w+)? {(.*?)}\n", head + "\n", re.S):
            for fact in clause.split("×"):
                facts[" ".join(fact.split()).strip("() ")].add(place)
        found = re.search(r"\((.*?)\)\s*(->|requires|ensures|$)", head, re.S)
        names = re.findall(r"(\w+): [&\w]", found.group(1)) if found else []
        for size in range(3, len(names) + 1):
            for first in range(len(names) - size + 1):
                groups[", ".join(names[first:first + size])].add(place)
    out = [f"{len(places)} functions: {fact}" for fact, places in facts.items() if len(places) > 2]
    most = [(names, places) for names, places in groups.items() if len(places) > 2]
    out += [f"{len(places)} functions: parameters {names}" for names, places in most
            if not any(names != other and names in other and places <= theirs for other, theirs in most)]
    return sorted(out, key=lambda line: -int(line.split()[0]))


def answers():
    found = []
    for path in sorted(TOP.glob("crates/*/proofs/**/Answers.antt")):
        found += [f"{path.relative_to(TOP)}: {name}" for name in re.findall(r"^pub (\S+) : goal\.", path.read_text(), re.M)]
    return found


POINTS = {
    1: [("enums of its own", lambda: lines_with(r"^\s*(pub )?enum ")),
        ("lines with a number for a refusal", lambda: lines_with(REFUSALS)),
        ("lines with a letter for a kind", lambda: lines_with(r"b'[A-Z]'|\b(72|79|82) =>")),
        ("flags in structs", lambda: lines_with(r"^\s+(pub )?\w+: bool,$"))],
    2: [("groups of functions of one shape", twins)],
    3: [("loops that are no `for`", lambda: lines_with(r"^\s*('\w+: )?(while |loop {)"))],
    4: [("functions that compare, copy, convert or print by hand", lambda: lines_with(BY_HAND))],
    5: [("facts and parameters that stand in three functions or more", repeated)],
    6: [("lines with a buffer and a number beside it, or arrays side by side", lambda: lines_with(BUFFERS))],
    7: [("`match`", lambda: lines_with(r"\bmatch .*{$"))],
    8: [("goals that are answered", answers)],
}

wanted = [int(word) for word in sys.argv[1:]]
for point, counts in POINTS.items():
    for what, find in counts:
        places = find()
        if not wanted or point in wanted:
            print(f"point {point}: {len(places)} {what}")
        if point in wanted:
            print("\n".join("  " + place for place in places))
