"""Small run files with the logs that the simulator writes of them, as equations about the definitions: for each file, that the
log which `model` defines has the simulator's bytes. The checker proves each by computing.

Usage: model.py SIMULATE EDGES SEED COUNT FILE.., the simulator's program and the crate of the starred edges: the imports of its table and of
its proof, and the proof's unfoldings, serve here too. COUNT random files and those named. Writes the proof file to standard output, and how
many of the logs end in E and in F to standard error.
"""
import os
import random
import re
import subprocess
import sys

simulate, edges, seed, count, named = sys.argv[1], sys.argv[2], int(sys.argv[3]), int(sys.argv[4]), sys.argv[5:]
choose = random.Random(seed)


def run_file(case):
    """Two to seven nodes, half of the time with a Q line, up to four crashes, some messages with a delay of their own. In one of three heartbeats
    are quick beside the longest delay, and many messages too, so that a heartbeat may name a node before the report of it comes. In another
    W is below H + D, by a tick or more."""
    quick, short = case % 3 == 0, case % 3 == 1
    nodes, period, delay = choose.randint(5 if quick else 2, 7), choose.randint(1, 2 if quick else 4), choose.randint(3 if quick else 1, 4)
    above = choose.choice([-1, -1, -2, -period]) if short else 0 if quick else choose.choice([0, 0, 1, 3])
    timeout = max(period + delay + above, 1)
    end = 20 if quick else choose.randint(8, 16) if short else choose.randint(10, 34)
    lines = [f"P,{nodes},{period},{timeout},{delay},{end}"]
    if choose.random() < 0.5:
        lines.append("Q," + ",".join(map(str, choose.sample(range(nodes), nodes))))
    crashed = choose.sample(range(nodes), choose.randint(1 if quick else 0, min(nodes, 4)))
    for tick, node in sorted((choose.randint(0, 2 if quick else end // 2), node) for node in crashed):
        lines.append(f"C,{tick},{node}")
    for number in sorted(choose.sample(range(120), choose.randint(30, 60) if quick else choose.randint(0, 25))):
        lines.append(f"L,{number},{1 if quick else choose.randint(1, delay)}")
    return "".join(line + "\n" for line in lines)


def literal(text):
    return '"' + text.replace("\n", "\\n") + '"'


def read(path):
    with open(path, encoding="utf-8") as file:
        return file.read()


def imports(*texts):
    """A `use` line for each name that the texts import."""
    lines = {}
    for module, names in re.findall(r"^use (\S+)\.\{(.*)\}$", "\n".join(texts), re.M):
        for name in names.split(", "):
            lines.setdefault(name.split(" as ")[-1], f"use {module}.{{{name}}}")
    return lines.values()


def written_of(table):
    """The table's definition of the log that is written of a file, for any number of events instead of fewer than 20."""
    kind = re.search(r"^unfoldable pub written : (.*)$", table, re.M).group(1)
    clauses = re.findall(r"^written (.*)$", table, re.M)
    return [f"unfoldable written_by : ℕ → {kind}", *(f"written_by tries {re.sub(r'20', 'tries', clause)}" for clause in clauses)]


table, proof = (read(os.path.join(edges, path)) for path in ("specs/Edges.antt", "proofs/Starred.antt"))
unfolded = " ".join(" ".join(re.findall(r"^unfolding (.*(?:\n +.*)*)$", proof, re.M)).split())
own = ["use Rattle.edges.specs.Edges.{" + name + "}" for name in ("bytes", "judged", "log_text")]
print("\n".join([*imports(table, proof, *own), "", *written_of(table), ""]))
files = [run_file(case) for case in range(count)] + [read(path) for path in named]
ends = {"E": 0, "F": 0}
for case, file in enumerate(files):
    log = subprocess.run([simulate], input=file.encode(), capture_output=True, check=True).stdout.decode()
    ends[log.splitlines()[-1][0]] += 1
    tries = log.count("\n") - log.count("\nK")
    print(f"case-{case} : written_by {tries} (judged {literal(file)}) ≡ bytes {literal(log)}")
    print(f"unfolding {unfolded} written_by\ncase-{case} = refl\n")
print(ends["E"], ends["F"], file=sys.stderr)
