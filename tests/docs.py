#!/usr/bin/env python3
"""Holds the documents against the repository: what they name is there, and the sizes that they give are those counted.

    python3 tests/docs.py    prints each complaint as DOCUMENT:LINE: `WORD`: what is wrong; status 1 if there is one

Looked at are words in backquotes, links, blocks of commands, and paths in plain text:

- A file or folder is there: from the root, from the document's folder, or beside or in the crate of the path before it in the
  paragraph; where no path stands before it, anywhere. NAME, LABEL and FUNCTION in a path stand for any name.
- `rt ci NAME` and its like name a command of the kit and a crate; a path below target/, and a word after tools/build.sh, name the crate
  that is built.
- A name is defined in crates/, include/kelbraut.h or tests/common.sh: a definition, law, record, field, constructor, function, type, constant, crate,
  module or must-fail edit. Of an expression that goes for what is applied; arguments are free. `a::b` is b in crate or module a.
- A name beside a file, as in "`law` in `FILE`", "`FILE`: `law`" or "`law` (`FILE`)", is defined in that file.
- The public calls, which are those exported for C and those in the table of docs/THEOREMS.md, have no `requires`, and the table has each
  of the former. A static library NAME_c exports what the library NAME has for C, each with the same parameters and contract, word for word.
- A table whose first column is headed 'Crate' has a row for each crate. docs/README.md names every document, test and tool, tests/run
  every test, and docs/THEOREMS.md every must-fail edit.

Passed over by form: lines of run files and logs (a comma and no space), numbers, single letters, commands, C types (`.._t`),
modules (`Rattle.NAME..`), the library's functions (`std::..`). At each run the check first tries itself on wrong words, all of which it has
to see, and on right ones."""
import glob
import os
import re
import sys

os.chdir(os.path.dirname(os.path.dirname(os.path.abspath(__file__))))
sys.dont_write_bytecode = True
sys.path.insert(0, "tools")
from figures import FIGURES, TIMES, counted, crates, read, table  # the tables of docs/FIGURES.md

# Designs of later changes name what is not there yet, and the page on the port what is gone: of these only paths are checked.
DESIGNS = [*glob.glob("docs/changes/*.md"), "docs/PORT.md", "docs/DESIGN-PASS.md", "docs/LOOK-BACK.md"]
DOCUMENTS = sorted({"README.md", "CONTRIBUTING.md", "docs/src/README.md", *glob.glob("docs/*.md"), *DESIGNS})
COMMANDS = set("rt sh gcc rustc python3 git grep".split())
# Words of the kit's languages that documents use as such.
LANGUAGE = set("requires ensures pub mod unfoldable search rules omega arith".split())
PATH = r"(?:crates|docs|tests|tools|include|\.ci|target)/[\w./*-]*"
ENDING = re.compile(r"\.(antt|rt|rs|c|h|sh|py|md|txt|edit|run|svg)$")
RT = "all check ci doc expand fmt help lemma lib must-fail new plant run selftest test tidy try verdict version".split()
OF_CRATE = r"(?:rt (?:must-fail|ci)|sh tools/build\.sh) ([a-z]\w*)"
NAME = re.compile(r"[^\W\d][\w'₀-₉≥≤-]*$")
LISTED = r"(?:,|,? and|,? or)\s+$"


# ---- what the repository has


def antt_names(text):
    """The names that an antt file defines, those of `where` blocks left out."""
    names, local = set(), None
    for line in text.split("\n"):
        indent = len(line) - len(line.lstrip())
        if local is not None and line.strip() and indent <= local:
            local = None
        if line.strip() == "where":
            local = indent
        m = re.match(r" *(?:(?:pub|unfoldable|abbrev) )*([^\s:(){}]+(?: [^\s:(){}]+)*) :(?:\s|$)", line)
        if m and local is None and m.group(1).split()[0] not in ("let", "--", "module", "record", "data"):
            names.update(m.group(1).split())
        names.update(re.findall(r"^ *(?:pub )?(?:record|data|mod) (\S+)", line))
    return names


def code_names(text):
    """The names that a Rattle, Rust or C file defines."""
    forms = [
        r"\b(?:fn|struct|enum|const|type|mod) (\w+)",
        r"^ +(?:pub )?(\w+): ",
        r"^ +([A-Z]\w*)(?:[,({]|$| \{)",
        r"#define (\w+)",
        r"\b(kelbraut_\w+)\(",
    ]
    return {name for form in forms for name in re.findall(form, text, re.M)}


class Repository:
    def __init__(self):
        self.files, self.folders = set(), set()
        for at, folders, files in os.walk("."):
            made = (at, ".git"), (at, "out" if re.match(r"\./crates/\w+$", at) else ""), (".", "target")
            folders[:] = [f for f in folders if (at, f) not in made]
            self.folders.update(os.path.normpath(os.path.join(at, f)) for f in folders)
            self.files.update(os.path.normpath(os.path.join(at, f)) for f in files)
        self.all = sorted(self.files | self.folders)
        self.crates = crates()
        self.edits = {re.sub(r"crates/(\w+)/must-fail/(\w+)\.edit", r"\1/\2", f) for f in self.files if f.endswith(".edit")}
        self.defined = {}
        for f in self.files:
            if re.match(r"crates/.*\.antt$", f):
                self.defined[f] = antt_names(read(f))
            elif re.match(r"crates/.*\.rt$|docs/src/.*\.rs$|include/.*\.h$", f):
                self.defined[f] = code_names(read(f))
            elif f == "tests/common.sh":
                self.defined[f] = set(re.findall(r"^(\w+)\(\)", read(f), re.M))
        self.names, self.simulator = set(self.crates) | {e.split("/")[1] for e in self.edits}, set()
        self.names.update(os.path.basename(f) for f in self.files)
        for f, names in self.defined.items():
            (self.simulator if f.startswith("docs/") else self.names).update(names, [os.path.basename(f).split(".")[0]])

    def has(self, path):
        """The files and folders that a path from the root may mean."""
        path = os.path.normpath(path)
        wild = re.sub(r"\b(NAME|LABEL|FUNCTION)\b", "*", path)
        if "*" not in wild:
            return [path] if path in self.files or path in self.folders else []
        pattern = re.compile(re.escape(wild).replace(r"\*", "[^/]*") + "$")
        return [f for f in self.all if pattern.match(f)]

    def find(self, word, document, before):
        """What a document may mean by a path, the one before it in the paragraph being known."""
        places = ["", os.path.dirname(document)]
        if before:
            crate = re.match(r"crates/\w+", before)
            places.append(before if before in self.folders else os.path.dirname(before))
            places += [crate.group() + part for part in ("", "/specs", "/proofs", "/src")] if crate else []
        found = next(filter(None, (self.has(os.path.join(p, word)) for p in places)), [])
        return found or [f for f in self.all if not before and ("/" + f).endswith("/" + os.path.normpath(word))]


# ---- what a document names


def paragraphs(text):
    """The paragraphs of a document, each as (number of its first line, lines, whether it is a block of commands)."""
    out, fenced, code, last = [], False, False, ""
    for number, line in enumerate(text.split("\n"), 1):
        if line.lstrip().startswith("```"):
            fenced, last = not fenced, ""
            continue
        code = fenced or (line.startswith("    ") and (not last.strip() or code))
        if line.strip():
            if not last.strip() or out[-1][2] != code:
                out.append((number, [], code))
            out[-1][1].append(line)
        last = line
    return out


def spans(text, code):
    """What a paragraph names, in order: (start, end, word, kind), kind being link, quoted or plain."""
    found = []
    if not code:
        found += [(m.start(1), m.end(1), m.group(1), "link") for m in re.finditer(r"\]\(([^)\s]+)\)", text)]
        found += [(m.start(), m.end(), " ".join(m.group(1).split()), "quoted") for m in re.finditer(r"`([^`]+)`", text)]
    taken = [(start, end) for start, end, _, _ in found]
    for m in re.finditer(r"(?<![\w./-])" + PATH + (r"|\b" + OF_CRATE if code else ""), text):
        if not any(start <= m.start() < end for start, end in taken):
            found.append((m.start(), m.end(), m.group().rstrip(".-"), "plain"))
    return sorted(found)


def is_path(word):
    return bool(re.match(r"[\w./*-]+$", word)) and ("/" in word or bool(ENDING.search(word)))


def applied(expression):
    """The words of an expression that are applied, or stand alone between operators, and its fields."""
    head, heads = True, []
    for w in re.sub(r"([()\[\],;{}])", r" \1 ", expression).split():
        if NAME.match(w):
            heads += [w] if head and len(w) > 1 else []
            head = False
        elif re.match(r"\.\w", w):
            heads.append(w[1:])
        else:
            head = not w.isdigit() and w not in (")", "]", "}", "..")
    return heads


class Document:
    def __init__(self, repository, path, text):
        self.repository, self.path, self.text = repository, path, text
        self.names = repository.names | repository.simulator if path.startswith("docs/src/") else repository.names
        self.complaints = []

    def complain(self, line, word, why):
        self.complaints.append((self.path, line, word, why))

    def check(self):
        for first, lines, code in paragraphs(self.text):
            text = "\n".join(lines)
            if lines[0].startswith("| Crate"):
                self.crate_rows(first, lines)
            before, items = None, []
            for start, end, word, kind in spans(text, code):
                line = first + text.count("\n", 0, start)
                files = self.word(line, word, kind, before)
                if files:
                    before = files[0] if len(files) == 1 and "/" in files[0] else None
                items.append((start, end, line, word, [f for f in files if f in self.repository.defined]))
            self.homes(text, items)
        return self.complaints

    def word(self, line, word, kind, before):
        """Checks one word; answers the files and folders that it may mean."""
        if kind == "link":
            if re.match(r"\w+:|#", word):
                return []
            found = self.repository.has(os.path.join(os.path.dirname(self.path), word.split("#")[0]))
            if not found:
                self.complain(line, word, "no such file")
            return found
        m = re.match(r"target/bin/(\w+)|target/staticlib/lib(\w+)\.a|" + OF_CRATE, word)
        if m and m.group(m.lastindex) not in self.repository.crates + ["NAME"]:
            self.complain(line, word, "no such crate")
        if word.startswith("target/"):
            return []
        if kind == "quoted" and re.match(r"rt ", word) and word.split()[1] not in RT:
            self.complain(line, word, "no such command")
        if is_path(word):
            found = self.repository.find(word, self.path, before)
            if not found and word not in self.repository.edits:
                self.complain(line, word, "no such file, folder or edit" + (f" by {before}" if before and "/" not in word else ""))
            return found
        if word.split()[0] in COMMANDS or is_path(word.split()[0]):
            parts = [part for part in word.split() if is_path(part) and not part.startswith("target/")]
            return sum((self.word(line, part, kind, before) for part in parts), [])
        if kind == "quoted" and self.path not in DESIGNS:
            self.named(line, word)
        return []

    def named(self, line, word):
        """Checks a name or an expression."""
        if "," in word and " " not in word or word.startswith(("Rattle.", "std::")) or re.match(r"\w+_t$", word):
            return
        if re.match(r"\w+(::\w+)+$", word):
            home, *inner, last = word.split("::")
            files = [f for f, names in self.repository.defined.items() if last in names and f.endswith((".rt", ".rs"))]
            if home in self.repository.crates:
                files = [f for f in files if f.startswith("/".join(["crates", home, "src", *inner]))]
            if not files or home not in self.names:
                self.complain(line, word, "no such function")
            return
        for name in applied(word):
            if name not in self.names | LANGUAGE | COMMANDS:
                self.complain(line, name, "defined nowhere")

    def homes(self, text, items):
        """Names beside a file, or a list of files, are defined there."""

        def joined(i, how):
            return re.match(how, text[items[i][1] : items[i + 1][0]])

        def is_name(i):
            return 0 <= i < len(items) and not is_path(items[i][3]) and NAME.match(items[i][3].split()[0])

        i = 0
        while i < len(items):
            files, at = list(items[i][4]), i
            while files and i + 1 < len(items) and items[i + 1][4] and joined(i, LISTED):
                i += 1
                files += items[i][4]
            beside, k = [], at - 1
            if files and is_name(k) and joined(k, r"(?:,|,? in|,? of| \()\s*$"):
                beside.append(k)
                while is_name(k - 1) and joined(k - 1, LISTED):
                    k -= 1
                    beside.append(k)
            k = i + 1
            if files and is_name(k) and joined(i, r":\s*$"):
                beside.append(k)
                while is_name(k + 1) and joined(k, LISTED):
                    k += 1
                    beside.append(k)
            after = re.match(r" [^.;:()|]{0,40}\([^()]*\)", text[items[i][1] :].replace("\n", " ")) if files else None
            while after and is_name(k) and items[k][0] < items[i][1] + after.end():
                beside.append(k)
                k += 1
            for _, _, line, word, _ in (items[k] for k in beside):
                name = (applied(word) or [""])[0]
                known = name in self.names and name not in self.repository.crates
                if known and not any(name in self.repository.defined[f] for f in files):
                    self.complain(line, name, "not defined in " + " or ".join(files))
            i += 1

    def crate_rows(self, first, lines):
        rows = [line.split("|")[1].strip(" `") for line in lines[2:]]
        for crate in self.repository.crates:
            if crate not in rows:
                self.complain(first, crate, "the table has no row for this crate")
        for number, row in enumerate(rows, first + 2):
            if row not in self.repository.crates and row != "all":
                self.complain(number, row, "no such crate")


# ---- the index and the figures


def index(repository, text, run, theorems):
    """Complaints about docs/README.md: each document of the folder, each test and each tool is named in it; about tests/run, which names
    each test; and about docs/THEOREMS.md, which names each edit."""
    wanted = sorted(f for f in repository.files if re.match(r"docs/\w+\.md$|tests/\w+\.sh$|tools/\w+\.(sh|py)$", f))
    complaints = [("docs/README.md", 1, f, "not named") for f in wanted if f != "docs/README.md" and os.path.basename(f) not in text]
    tests = [re.sub(r"tests/(\w+)\.sh", r"\1", f) for f in wanted if f.startswith("tests/") and f != "tests/common.sh"]
    complaints += [("tests/run", 1, test, "not run") for test in tests if not re.search(rf"^beside .*\b{test}\b", run, re.M)]
    return complaints + [("docs/THEOREMS.md", 1, e, "an edit that is not named") for e in sorted(repository.edits) if f"`{e}`" not in theorems]


def figures(text, rows):
    """Complaints about the sizes in a text, and about the counts of edits beside the times."""
    lines, complaints = text.split("\n"), []
    wanted = {row.split("|")[1].strip(): row for row in rows}
    at, end = table(lines, rows[0])
    for number, line in enumerate(lines[at:end], at + 1):
        row = wanted.pop(line.split("|")[1].strip(), None)
        if row and line != row:
            complaints.append((FIGURES, number, line, f"counted: {row}"))
    complaints += [(FIGURES, at + 1, name, "no row of sizes") for name in wanted]
    edits = {row.split("|")[1].strip(): row.split("|")[6].strip() for row in rows}
    at, end = table(lines, TIMES)
    for number, line in enumerate(lines[at:end], at + 1):
        _, name, _, count, _, _ = (part.strip() for part in line.split("|"))
        if count.isdigit() and edits.get(name, count) != count:
            complaints.append((FIGURES, number, f"{name}, {count} edits", f"counted: {edits[name]}"))
    return complaints


def sources():
    return {path: read(path) for path in glob.glob("crates/*/src/*.rt")}


def public_calls(theorems, sources):
    """Complaints about public calls: one that is exported for C and not in the table of calls, one that asks its caller for something, and
    one that a static library NAME_c has otherwise than the library NAME."""
    complaints, listed, path = [], {}, ""
    lines = theorems.split("\n")
    at = lines.index("| Call | In | Contract by |")
    for number, line in enumerate(lines[at + 2 :], at + 3):
        if not line.startswith("|"):
            break
        calls, place = line.split("|")[1:3]
        path = (re.findall(r"`(.*)`", place) or [path])[0]
        listed.update({(path, call.split("::")[-1]): number for call in re.findall(r"`([\w:]+)`", calls)})
    heads = {}
    for source, text in sources.items():
        for head in re.findall(r'^(?:pub )?(?:extern "C" )?fn .*?^\{', text, re.M | re.S):
            heads[source, re.search(r"fn (\w+)", head).group(1)] = head
    exported = {call for call, head in heads.items() if head.startswith('pub extern "C"') and not call[0].startswith("crates/lines/")}
    for source, name in sorted(exported):
        library = re.match(r"crates/(\w+)/src/lib\.rt", source).group(1)
        static = f"crates/{library.removesuffix('_c')}_c/src/lib.rt"
        if source != static and (source, name) not in listed:
            complaints.append(("docs/THEOREMS.md", at + 1, name, "exported, and not in the table"))
        if heads.get((static, name)) != heads.get((static.replace("_c/", "/"), name)):
            complaints.append((source, 1, name, f"not the same in the library and in {static}"))
    for (source, name), number in listed.items():
        head = heads.get((source, name))
        if head is None:
            complaints.append(("docs/THEOREMS.md", number, name, f"no such function in {source}"))
        elif "requires" in head:
            complaints.append((source, 1, name, "a public call with a `requires`"))
    return complaints


# ---- whether the check sees what is wrong


WRONG = [
    ("README.md", "See `crates/ring/specs/Rings.antt`.", "crates/ring/specs/Rings.antt"),
    ("README.md", "See crates/ring/specs/Rings.antt.", "crates/ring/specs/Rings.antt"),
    ("README.md", "See [it](docs/NOWHERE.md).", "docs/NOWHERE.md"),
    ("docs/README.md", "See [it](tests/run).", "tests/run"),
    ("README.md", "    sh tests/nothing.sh", "tests/nothing.sh"),
    ("README.md", "    rt must-fail nothing", "rt must-fail nothing"),
    ("README.md", "    sh tools/build.sh nothing", "sh tools/build.sh nothing"),
    ("README.md", "`rt nothing`", "rt nothing"),
    ("README.md", "`target/bin/nothing`", "target/bin/nothing"),
    ("README.md", "`target/staticlib/libnothing.a`", "target/staticlib/libnothing.a"),
    ("README.md", "`sh tests/nothing.sh`", "tests/nothing.sh"),
    ("README.md", "`crates/NAME/nothing/`", "crates/NAME/nothing/"),
    ("docs/THEOREMS.md", "`crates/ring/specs/Ring.antt`, `Node.antt`", "Node.antt"),
    ("docs/THEOREMS.md", "by `no-such-law`", "no-such-law"),
    ("docs/THEOREMS.md", "by `noSuch (field_at s)`", "noSuch"),
    ("docs/THEOREMS.md", "by `r ≡ bytes (noSuch ..)`", "noSuch"),
    ("docs/THEOREMS.md", "`value` in `crates/ring/specs/Ring.antt`", "value"),
    ("docs/THEOREMS.md", "`crates/ring/specs/Ring.antt`: `value`", "value"),
    ("docs/THEOREMS.md", "`crates/ring/specs/Ring.antt` has it (`listed`, and for bytes `value`)", "value"),
    ("docs/THEOREMS.md", "`value` and\n`bytes` (`crates/ring/specs/Ring.antt`)", "bytes"),
    ("docs/DECISIONS.md", "the edit `fields/no_such_edit`", "fields/no_such_edit"),
    ("docs/LAYOUTS.md", "`fields::nothing`", "fields::nothing"),
    ("docs/LAYOUTS.md", "`node::get`", "node::get"),
    ("CONTRIBUTING.md", "| Crate | First |\n|---|---|\n| nothing | x |", "nothing"),
    ("CONTRIBUTING.md", "| Crate | First |\n|---|---|\n| ring | x |", "fields"),
]
RIGHT = """`P,2,2,3,1,6`, `8,0`, `W`, `12`, `uint64_t`, `rt ci NAME`, `fields::get`, `fields/another_base`, `r ≡ bytes (value x)`, `KELBRAUT_RECORD`,
`crates/NAME/specs/`, and `value` and `bytes` in `crates/fields/specs/Fields.antt`; `put-turn` in `proofs/Fields.antt`."""


def self_test(repository, rows):
    """Each wrong word is complained of at its line, and nothing right is."""
    failures = []
    for path, text, word in WRONG:
        line = 3 + text[: max(0, text.find(word))].count("\n")
        seen = Document(repository, path, "# Title\n\n" + text).check()
        if (path, line, word) not in [complaint[:3] for complaint in seen]:
            failures.append(f"tests/docs.py: a wrong `{word}` in '{text}' is not seen")
    seen = Document(repository, "docs/THEOREMS.md", RIGHT).check() + figures("\n".join(rows), rows)
    failures += ["tests/docs.py: a right word is complained of: " + shown(complaint) for complaint in seen]
    wrong_size = [*rows[:2], rows[2].replace(" |", "1 |", 3), *rows[3:]]
    wrong_count = [*rows, "", TIMES, "|---|---|---|---|", "| fields | 1 s | 1000 | 1 s |"]
    for lines in (wrong_size, rows[:-1], wrong_count):
        if len(figures("\n".join(lines), rows)) != 1:
            failures.append("tests/docs.py: a wrong figure is not seen")
    lacking = {"docs/README.md": ["docs/LAYOUTS.md", "tools/bench.sh"], "tests/run": ["host"], "docs/THEOREMS.md": ["fields/rest_unseen"]}
    without = {path: read(path) for path in lacking}
    for path, words in lacking.items():
        for word in words:
            without[path] = without[path].replace(os.path.basename(word), "")
    unnamed = index(repository, *without.values())
    for path, word in ((path, word) for path, words in lacking.items() for word in words):
        if (path, 1, word) not in [complaint[:3] for complaint in unnamed]:
            failures.append(f"tests/docs.py: that {path} does not name {word} is not seen")
    of_calls, run = read("docs/THEOREMS.md"), "    ensures value { result ≡ (run store.old budget).answer }"
    platform, wanting = "crates/platform/src/lib.rt", "    requires { budget ≡ 1 }\n"
    asked = {path: text.replace(run, wanting + run) if path == platform else text for path, text in sources().items()}
    unlisted = public_calls(of_calls.replace("`kelbraut_write`, ", ""), sources())
    static, clause = "crates/planner_c/src/lib.rt", "    ensures out_after { out.new ≡ (write_file store.now out.old).out }\n"
    lacking = {path: text.replace(clause, "") if path == static else text for path, text in sources().items()}
    for seen, word in ((public_calls(of_calls, asked), "run"), (unlisted, "kelbraut_write"), (public_calls(of_calls, lacking), "kelbraut_write")):
        if word not in [complaint[2] for complaint in seen]:
            failures.append(f"tests/docs.py: that `{word}` asks for something, lacks a clause or is not in the table of calls is not seen")
    return failures


def shown(complaint):
    path, line, word, why = complaint
    return f"{path}:{line}: `{word}`: {why}"


def main():
    repository, rows = Repository(), counted()
    failures = self_test(repository, rows)
    complaints = index(repository, read("docs/README.md"), read("tests/run"), read("docs/THEOREMS.md")) + figures(read(FIGURES), rows)
    complaints += public_calls(read("docs/THEOREMS.md"), sources())
    for path in DOCUMENTS:
        complaints += Document(repository, path, read(path)).check()
    failures += map(shown, sorted(complaints))
    if failures:
        print("\n".join(failures), file=sys.stderr)
        sys.exit(1)
    print(f"docs: {len(DOCUMENTS)} documents name what is there, and the figures are those counted")


main()
