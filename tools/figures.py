#!/usr/bin/env python3
"""The tables of docs/FIGURES.md that are counted or measured.

    python3 tools/figures.py --sizes   writes the table of tools/sizes.sh into docs/FIGURES.md
    python3 tools/figures.py --times   measures the time of each crate and of its edits, each from nothing, and writes them there; it takes
                                       several times as long as a first gate, with nothing beside

tests/docs.py holds the sizes, and the counts of edits beside the times, against those counted."""
import glob
import os
import re
import subprocess
import sys
import time

FIGURES = "docs/FIGURES.md"
TIMES = "| Crate | Proved in | Its edits | together in |"


def read(path):
    with open(path, encoding="utf-8") as f:
        return f.read()


def crates():
    """The names in crates.txt."""
    return re.findall(r"^(\w+)(?: staticlib)?:", read("crates.txt"), re.M)


def counted():
    done = subprocess.run(["sh", "tools/sizes.sh"], capture_output=True, text=True, check=True)
    return done.stdout.rstrip("\n").split("\n")


def table(lines, header):
    """Where the table with that header is: from which line, counted from 0, up to which; (0, 0) where there is none."""
    at = end = lines.index(header) if header in lines else 0
    while header in lines and end < len(lines) and lines[end].startswith("|"):
        end += 1
    return at, end


def verdicts(crate):
    """The seconds in which a crate and those below it are each proved from nothing, by name."""
    took, name, began = {}, crate, time.monotonic()
    process = subprocess.Popen(["rt", "verdict"], cwd=f"crates/{crate}", stdout=subprocess.PIPE, stderr=subprocess.STDOUT, text=True)
    for line in process.stdout:
        begins = re.match(r"rt: chose --jobs \d+ for (\w+)", line)
        if begins:
            name, began = begins.group(1), time.monotonic()
        elif line.startswith("logic=proved"):
            took[name] = round(time.monotonic() - began)
    if process.wait():
        sys.exit(f"figures: {crate} is not proved: see rt verdict in crates/{crate}")
    return took


def times():
    """The table of times: `rt verdict` in the crates that no other uses, which proves all below them, and `rt must-fail` for each crate."""
    used = {name for line in read("crates.txt").split("\n") for name in re.sub("#.*", "", line).partition(":")[2].split()}
    took = {}
    for crate in crates():
        if crate not in used:
            took = {**verdicts(crate), **took}
    rows = [TIMES, "|---|---|---|---|"]
    for crate in crates():
        edits, began = len(glob.glob(f"crates/{crate}/must-fail/*.edit")), time.monotonic()
        if edits and subprocess.run(["rt", "must-fail", "--anew", crate], stdout=subprocess.DEVNULL).returncode:
            sys.exit(f"figures: the edits of {crate} are not all refused: see rt must-fail {crate}")
        rows.append(f"| {crate} | {took[crate]} s | {edits} | {round(time.monotonic() - began)} s |")
    return rows


def put_table(rows):
    lines = read(FIGURES).split("\n")
    at, end = table(lines, rows[0])
    if at == end:
        sys.exit(f"figures: {FIGURES} has no table with the header {rows[0]}")
    lines[at:end] = rows
    with open(FIGURES, "w", encoding="utf-8") as f:
        f.write("\n".join(lines))


def main():
    os.chdir(os.path.dirname(os.path.dirname(os.path.abspath(__file__))))
    tables = {"--sizes": counted, "--times": times}
    if len(sys.argv) != 2 or sys.argv[1] not in tables:
        sys.exit("usage: figures.py --sizes | --times")
    put_table(tables[sys.argv[1]]())


if __name__ == "__main__":
    main()
