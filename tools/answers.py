#!/usr/bin/env python3
"""Turns functions' proofs of the older form, walks over the code in Proof.antt, to Invariants.antt and Answers.antt.

usage: tools/answers.py FOLDER NAMES [FUNCTION..]

FOLDER is a crate's folder, in today's spelling (port.py, then tools/snake_case.py). NAMES is the file names.json that
`rt check --generated DIR --old-names` writes in that folder: each goal, loop and step of a function, by its old name and by its new one. A FUNCTION is
a path below proofs/, as turn/crash; with none each Proof.antt of the crate is turned. What it cannot turn it names on a line that begins 'left:'.

In the older form an answer walks back from the place of its goal, as `c.before.before.step.ensures.0`. Today each step before the goal is a field of
`c`, as `c.step-x.ensures.value`. So a path is followed through the function's places and written anew; a `let` that only names a place goes, and what
was said of one clause by number goes by the clause's name. Answers that only say `search rules` are not written, since the check finds them.
The check has the last word: then run the kit's `port.py mend CRATE`, and mend by hand what `rt check` still says.
"""

import glob
import json
import os
import re
import sys

WORD = r'[^\s(){}.;,@"«»\[\]]+'
TOKEN = re.compile(r'--[^\n]*|"[^"\n]*"|«[^»]*»|' + WORD + r"|\.|[(){}\[\],;@]|\s+")
MARKS = r"(?:(?:pub|abbrev|unfoldable|opaque|record|data|ruleset) )*"
# The fields of every place, which go by no step.
COMMON = set("args requires ranges lifetimes well_formed type_inv auto typed decreases initial utf8 blocks".split())
# Rattle's own words that are spelled otherwise today.
WORDS = {"well-formed": "well_formed", "type-inv": "type_inv"}
left = []


def plain(name):
    return name.replace("_", "-").lower()


# ---- clauses with names, of functions with two or more of a kind


def closer(text, at, pair):
    """Where the bracket that opens before `at` is closed: the place after it."""
    depth = 1
    while depth:
        depth += (text[at] == pair[0]) - (text[at] == pair[1])
        at += 1
    return at


def clauses(top):
    """The names of each function's `requires` and of its `ensures`, by its path."""
    found = {}
    for path in glob.glob(top + "/crates/*/src/**/*.rt", recursive=True):
        crate, module = re.search(r"crates/(\w+)/src/(.*)\.rt$", path).groups()
        steps = [crate] + ([] if module in ("lib", "main") else module.split("/"))
        with open(path, encoding="utf-8") as f:
            text = f.read()
        for fn in re.finditer(r"\bfn (\w+)\s*(?:<[^>]*>)?\(", text):
            at, names = closer(text, fn.end(), "()"), {"requires": [], "ensures": []}
            result = re.compile(r"\s*(?:->[^{]*?(?=\s+(?:requires|ensures)\b|\s*\{))?\s*").match(text, at)
            at = result.end()
            while clause := re.compile(r"\s*(requires|ensures)\s*\*?\s*(\w+)?\s*\{").match(text, at):
                names[clause[1]].append(clause[2])
                at = closer(text, clause.end(), "{}")
            found["::".join([*steps, fn[1]])] = names
    return found


def by_name(names, path):
    """A path into nested pairs, one for each clause, as a path that begins with the clause's name."""
    last = len(names) - 1
    if last < 1 or not path or not path[0].isdigit():
        return path
    if int(path[0]) > 1:
        return [names[int(path[0])], *path[1:]] if int(path[0]) <= last else path
    passed, rest = 0, list(path)
    while passed < last and rest and rest[0] == "1":
        passed, rest = passed + 1, rest[1:]
    return [names[passed], *(rest[1:] if passed < last and rest and rest[0] == "0" else rest)]


def parts(text):
    """The components of a tuple, or nothing where the text is none."""
    text = text.strip()
    if not (text.startswith("(") and text.endswith(")")):
        return []
    depth, start, out = 0, 1, []
    for at, mark in enumerate(text):
        depth += (mark in "([{") - (mark in ")]}")
        if depth == 0 and at < len(text) - 1:
            return []
        if depth == 1 and mark == ",":
            out.append(text[start:at])
            start = at + 1
    out.append(text[start:-1])
    out = [it.strip() for it in out if it.strip()]
    return out if len(out) > 1 else []


def as_record(names, text):
    """What stands for several clauses, a tuple or a term of pairs, as a record by their names."""
    each = parts(text)
    if not each:
        if re.match(r"(search|omega|grind|rw|elim|record|λ)\b|λ", text.strip()):
            return text
        paths = ["1." * k + ("0" if k < len(names) - 1 else "") for k in range(len(names))]
        fields = "; ".join(f"{it} = r.{path.rstrip('.')}" for it, path in zip(names, paths))
        return f"let r = {text.strip()} in\n    record {{ {fields} }}"
    while len(each) < len(names) and parts(each[-1]):
        each[-1:] = parts(each[-1])
    while len(each) < len(names):
        each[-1:] = [f"({each[-1]}).0", f"({each[-1]}).1"]
    each[len(names) - 1 :] = [each[-1] if len(each) == len(names) else "(" + ", ".join(each[len(names) - 1 :]) + ")"]
    return "record {\n" + "".join(f"      {it} = {term};\n" for it, term in zip(names, each)) + "    }"


def last_term(text):
    """Where the term begins that stands behind the `let`s of an answer."""
    depth, at = 0, 0
    for it in re.finditer(r"[(\[{}\])]|(?<=\s)in(?=\s)|λ", text):
        depth += (it[0] in "([{") - (it[0] in ")]}")
        if depth == 0 and it[0] == "λ":
            return at
        if depth == 0 and it[0] == "in":
            at = it.end()
    return at


# ---- a function's places


class Function:
    """The places, goals and loops of one function, by their old names."""

    def __init__(self, path, names, all_clauses):
        self.path, self.clauses = path, all_clauses
        self.places, self.arms = names["places"], names["arms"]
        self.at = {}
        for k, place in enumerate(self.places):
            self.at.setdefault(place[0], k)
        self.goals = {}
        for (old, new), (place, _) in zip(names["needs"], names["asked_at"]):
            for it in (old, "overflow-" + old, "nonzero-" + old, new):
                self.goals.setdefault(plain(it), (new, place))
        self.loops = {plain(old): (new, names, moved) for ((old, new), names), moved in zip(names["loops"], names["changed"])}

    def own(self, kind):
        return self.clauses.get(self.path, {}).get(kind, [])

    def above(self, place):
        return self.at.get(self.places[place][1]) if self.places[place][1] else None

    def is_step(self, place, name):
        old, new = self.places[place][2]
        return bool(old) and (plain(old) == plain(name) or new == name)

    def asked(self, place, goal):
        """The clauses that a goal covers, where there are several."""
        if re.fullmatch(r"returns(-\d+)?", goal):
            return self.own("ensures")
        if re.search(r"-requires(-\d+)?$", goal):
            for it in self.places:
                if it[1] == place and it[3] in self.clauses:
                    return self.clauses[it[3]]["requires"]
        return []

    def read(self, start, path):
        """Follows an old path from a place. Answers the place that it names, or the fields that stand for it today."""
        place = start
        for k, name in enumerate(path):
            if name == "before":
                place = self.above(place) if self.above(place) is not None else place
            elif self.is_step(place, name):
                return None, self.step(place, path[k + 1 :])
            elif name == "requires":
                return None, ["requires", *by_name(self.own("requires"), path[k + 1 :])]
            elif WORDS.get(name, name) in COMMON:
                return None, [WORDS.get(name, name), *path[k + 1 :]]
            else:
                return None, self.sought(place, path[k:])
        return place, None

    def sought(self, place, path):
        """A step that is not where the older kit had it: it is looked for on the way from the place, then from the goal."""
        for it in (place, self.goal):
            while it is not None:
                if self.is_step(it, path[0]):
                    return self.step(it, path[1:])
                it = self.above(it)
        left.append(f"{self.path}: no step {path[0]}")
        return path

    def step(self, place, rest):
        """The fields that stand for a step and what is read off it."""
        _, _, (old, new), called, turned = self.places[place]
        if arm := self.arms[place]:
            fits = [it for it in arm[2] if plain(it[1]) == plain(old) and rest[: len(it[2])] == it[2]]
            if fits:
                field, _, path = max(fits, key=lambda it: len(it[2]))
                return [arm[0], field, *rest[len(path) :]]
        turned = dict(turned or [])
        if rest and rest[0] in turned:
            rest = [turned[rest[0]], *rest[1:]]
        elif rest and rest[0] in ("true", "false") and new.startswith("if-not-"):
            rest = [rest[0] + "-raw", *rest[1:]]
        elif rest and rest[0] == "ensures" and called in self.clauses:
            rest = ["ensures", *by_name(self.clauses[called]["ensures"], rest[1:])]
        return [new, *rest]

    def names_at(self, fields):
        """The names of the clauses that a path ends at."""
        if fields == ["requires"]:
            return self.own("requires")
        called = [it[3] for it in self.places if fields[1:] == ["ensures"] and it[2][1] == fields[0]]
        return self.clauses.get(called[0], {}).get("ensures", []) if called else []

    def answer(self, text, context, place):
        """An answer's text, with each path of today."""
        self.goal, places, named, out = place, {context: place}, {}, []
        tokens = TOKEN.findall(text)

        def fields(at):
            path = []
            while at + 1 < len(tokens) and tokens[at] == "." and re.match(r"\w", tokens[at + 1]):
                path.append(tokens[at + 1])
                at += 2
            return path, at

        def past(at):
            while at < len(tokens) and tokens[at].isspace():
                at += 1
            return at

        at = 0
        while at < len(tokens):
            it = tokens[at]
            if it == "let":
                name = past(at + 1)
                equals = past(name + 1)
                head = past(equals + 1)
                path, end = fields(head + 1)
                end = past(end)
                if tokens[equals] == "=" and tokens[head] in places and tokens[end] == "in":
                    found, today = self.read(places[tokens[head]], path)
                    places.pop(tokens[name], None)
                    if found is not None:
                        places[tokens[name]] = found
                        at = past(end + 1)
                    else:
                        named[tokens[name]] = self.names_at(today)
                        out.append(f"let {tokens[name]} = {'.'.join([context, *today])} in")
                        at = end + 1
                    continue
                if tokens[name] != context:
                    places.pop(tokens[name], None)
            path, end = fields(at + 1)
            if it in places and (not out or out[-1] != "."):
                _, today = self.read(places[it], path)
                out.append(".".join([context, *(today or [])]))
                at = end
            elif it in named and path:
                out.append(".".join([it, *by_name(named[it], path)]))
                at = end
            else:
                out.append(it)
                at += 1
        return "".join(out)


# ---- files


def blocks(text):
    """The `use` lines of a file and its declarations, each with the comment above it."""
    uses, out, above = [], [], []
    for line in text.split("\n"):
        if line.startswith("use "):
            uses.append(line)
        elif line.startswith("--") or not line.strip():
            above.append(line)
        elif re.match(rf"{MARKS}{WORD}(?: {WORD})* :(\s|$)|module |(pub )?(record|data|ruleset) ", line):
            out.append([*[it for it in above if it], line])
            above = []
        else:
            out[-1] += [*above, line]
            above = []
    return uses, out


def needed(uses, text):
    """The `use` lines with the names that a text has."""
    tokens, out = set(TOKEN.findall(text)), []

    def has(name):
        name = name.split(" as ")[-1].strip("«» ")
        return name in tokens or name == "[]" and "[]" in text or "◌" in name and all(it in tokens for it in name.split("◌") if it)

    for use in uses:
        group = re.match(r"use (\S+?)\.\{(.*)\}\s*$", use)
        if not group:
            out += [use] * has(use.split(".")[-1])
        elif kept := [it.strip() for it in group[2].split(",") if has(it.strip())]:
            out.append(f"use {group[1]}.{{{', '.join(kept)}}}")
    return out


def public(block):
    """A helper as the invariants' file offers it."""
    lines = block.split("\n")
    at = next(k for k, it in enumerate(lines) if not it.startswith("--"))
    lines[at] = re.sub(r"^((?:abbrev |unfoldable )?)(?!pub )", r"\1pub ", lines[at], count=1)
    if lines[at].startswith("pub record "):
        lines[at + 1 :] = [re.sub(r"^  (?!--|pub )(\S)", r"  pub \1", it) for it in lines[at + 1 :]]
    return "\n".join(lines)


def turned(function, text, module):
    """The two files that stand for a walk: invariants and answers."""
    uses, found = blocks(text)
    head = re.match(r"(?:--.*\n)*", text)[0]
    invariants, answers, helpers, written = [], [], [], {}
    for lines in found:
        while not lines[-1].strip():
            lines.pop()
        comment = [it for it in lines if it.startswith("--") and it not in head]
        body = [it for it in lines if not it.startswith("--")]
        if re.match(rf"{MARKS}{WORD} :.*statement M", " ".join(body[:3])):
            continue
        sign = re.match(rf"{MARKS}({WORD}) :\s+tie\.({WORD})", " ".join(it.strip() for it in body[:2]))
        if not sign:
            helpers.append("\n".join(comment + body))
            continue
        name, kind = sign.groups()
        first = next(k for k, it in enumerate(body) if k and (it.startswith(name + " ") or it.startswith("unfolding")))
        unfolding = [it for it in body[first:] if it.startswith("unfolding")]
        clause = re.match(rf"{re.escape(name)}((?: (?!=){WORD})*) =(.*)", "\n".join(body[first + len(unfolding) :]), re.S)
        words, term = clause[1].split(), clause[2]
        what, _, of = kind.partition("-")
        if what in ("invariant", "decreases"):
            words, term = written.get(term.strip(), (words, term))
            written[name] = (words, term)
            new, variables, moved = function.loops[plain(of)]
            fields = [("initial." if it else "") + v for v, it in zip(variables, moved)] + [v for v, it in zip(variables, moved) if it]
            stands = {it: "l." + field for it, field in zip(words, fields)}
            tokens = TOKEN.findall(term)
            term = "".join(it if k and tokens[k - 1] == "." else stands.get(it, it) for k, it in enumerate(tokens))
            invariants.append("\n".join([*comment, f"abbrev pub {what}-{new} : goal.{what}-{new}", *unfolding, f"{what}-{new} l ={term}"]))
            continue
        if plain(of) not in function.goals:
            left.append(f"{function.path}: no goal {of}")
            continue
        new, place = function.goals[plain(of)]
        term = function.answer(term, words[0], function.at[place])
        names = function.asked(place, of)
        if len(names) > 1:
            at = last_term(term)
            term = term[:at] + re.match(r"\s*", term[at:])[0] + as_record(names, term[at:])
        if term.strip() != "search rules":
            words = " ".join([words[0], *[it for it in words[1:] if it != "κs"]])
            answers.append("\n".join([*comment, f"pub {new} : goal.{new}", *unfolding, f"{new} {words} ={term}"]))
    uses = [it for it in uses if not re.search(r"\.(Statement\.\{statement\}|Tie as tie)$", it)]
    named = lambda it: re.match(rf"(?:--.*\n)*{MARKS}({WORD})", it)[1]
    shared, wanted = [], set(TOKEN.findall("\n".join(invariants)))
    for it in reversed(helpers):
        if named(it) in wanted:
            shared.insert(0, it)
            wanted |= set(TOKEN.findall(it))
    own = [it for it in helpers if it not in shared]
    files = {}
    if invariants:
        text = "\n\n".join([public(it) for it in shared] + invariants)
        files["Invariants"] = head + "\n".join([*needed(uses, text), f"use {module}.Given as goal"]) + "\n\n" + text + "\n"
    if answers:
        text = "\n\n".join(own + answers)
        theirs = [named(it) for it in shared if named(it) in TOKEN.findall(text)]
        lines = [*needed(uses, text), *[f"use {module}.Invariants.{{{', '.join(theirs)}}}"] * bool(theirs), f"use {module}.Goals as goal"]
        files["Answers"] = head + "\n".join(lines) + "\n\n" + text + "\n"
    return files


def main():
    if len(sys.argv) < 3:
        print(__doc__, file=sys.stderr)
        return 2
    folder = os.path.abspath(sys.argv[1])
    crate, all_clauses = os.path.basename(folder), clauses(os.path.dirname(os.path.dirname(folder)))
    with open(sys.argv[2], encoding="utf-8") as f:
        names = json.load(f)
    done = 0
    for path in sorted(glob.glob(folder + "/proofs/**/Proof.antt", recursive=True)):
        steps = os.path.relpath(os.path.dirname(path), folder + "/proofs").split("/")
        key = f"Rattle-{crate}-proofs.{'.'.join(steps)}.Lts"
        with open(path, encoding="utf-8") as f:
            text = f.read()
        if sys.argv[3:] and "/".join(steps) not in sys.argv[3:]:
            continue
        if key not in names or "tie.close" not in text:
            left.append("::".join([crate, *steps]) + ": a walk of another form")
            continue
        function = Function("::".join([crate, *steps]), names[key], all_clauses)
        for name, out in turned(function, text, f"Rattle.{crate}.proofs.{'.'.join(steps)}").items():
            with open(os.path.join(os.path.dirname(path), name + ".antt"), "w", encoding="utf-8") as f:
                f.write(out)
        os.remove(path)
        done += 1
    for it in left:
        print("left: " + it)
    print(f"{crate}: {done} functions")
    return 0


if __name__ == "__main__":
    sys.exit(main())
