"""Computes what the dispatcher's program prints, turn by turn, from the rehearsal program's logs alone.

Usage: tests/turns.py LENGTH TURNS FILE ..                     writes it
       tests/turns.py --against PROGRAM FOLDER SEED COUNT      compares the program's output for generated run files, put into FOLDER
REHEARSE names another rehearsal program.

A log says how many events a file has, and whether one is refused after them; the rest is who gets which turn. A third
of the generated files have a W below H + D.
"""
import os
import random
import subprocess
import sys

REHEARSE = os.environ.get("REHEARSE", "target/bin/rehearse")
WANTED = {
    "one file", "eight files", "no event at all", "one turn a call", "fewer turns than asked", "passed over while others go on",
    "done in a turn", "done at a turn's end", "stopped in a turn", "stopped in a turn without events", "stopped in the last turn of a call",
    "short W", "short W beside long W",
}


class Rehearsal:
    """A run file by its log: how many events are to be done, and whether another is refused then."""

    def __init__(self, place, file):
        with open(file, "rb") as text:
            log = subprocess.run([REHEARSE], stdin=text, capture_output=True, check=True).stdout.decode().splitlines()
        self.place, self.file, self.events, self.stopped, self.short = place, file, 0, False, log[-1][0] == "F"
        self.left, self.refused = sum(line[0] not in "KEF8" for line in log), log[-1] == "8,0"
        if not self.refused and log[-1][0] not in "EF":
            sys.exit(f"turns: {file} is refused: {log[-1]}")

    def has_event(self):
        return self.left > 0 or self.refused

    def turn(self, length):
        did = min(length, self.left)
        self.left, self.events, self.stopped = self.left - did, self.events + did, did < length and self.refused
        return did


def one_call(going, length, turns, met):
    """The turns of a call, as (rehearsal, events), in their order."""
    given, after = [], -1
    while len(given) < turns:
        can = [(i <= after, i) for i, one in enumerate(going) if one.has_event() and not one.stopped]
        if not can:
            met.add("fewer turns than asked")
            break
        after = min(can)[1]
        one = going[after]
        did = one.turn(length)
        given.append((one, did))
        if one.stopped:
            met.add("stopped in a turn" if did else "stopped in a turn without events")
            met |= {"stopped in the last turn of a call"} if len(given) == turns else set()
        elif not one.has_event():
            met |= {"done in a turn" if did < length else "done at a turn's end"}
        if len(can) < len(going):
            met.add("passed over while others go on")
    return given


def printed(files, length, turns, met):
    """The output, and the exit status."""
    going, text, call, status = [Rehearsal(place, file) for place, file in enumerate(files)], "", 0, 0
    met |= {"no event at all"} if not all(one.has_event() for one in going) else set()
    met |= {"short W"} if any(one.short for one in going) else set()
    met |= {"short W beside long W"} if len({one.short for one in going if not one.refused}) == 2 else set()
    while going:
        call += 1
        given = one_call(going, length, turns, met)
        text += f"call {call}, {len(given)} of {turns} turns:{''.join(f' {one.place}:{did}' for one, did in given)}\n"
        for one in going:
            if one.stopped or not one.has_event():
                text += f"  {one.place} {one.file}: {'stopped by 8' if one.stopped else 'done'} after {one.events} events\n"
                status |= one.stopped
        going = [one for one in going if one.has_event() and not one.stopped]
    return text, status


def overfull(numbers):
    """A run file whose events are refused by 8 sooner or later, mostly: about as many messages in flight as there is room for."""
    nodes, h = numbers.randint(20, 64), numbers.randint(1, 2)
    d = min(255, 2048 * h // nodes + numbers.randint(0, 3))
    crashes = sorted((numbers.randint(0, 3 * d), node) for node in numbers.sample(range(nodes), numbers.choice([0, 0, 1, 3])))
    return nodes, h, h + d + numbers.randint(0, 9), d, 4 * d, crashes


def quiet(numbers):
    nodes, h, d = numbers.randint(1, 12), numbers.randint(1, 6), numbers.randint(1, 5)
    end = numbers.choice([0, h, numbers.randint(0, 300), numbers.randint(300, 1500)])
    crashes = sorted((numbers.randint(0, end), node) for node in numbers.sample(range(nodes), numbers.randint(0, nodes // 2)))
    return nodes, h, h + d + numbers.randint(0, 12), d, end, crashes


def generated(numbers):
    nodes, h, w, d, end, crashes = numbers.choice([quiet, quiet, overfull])(numbers)
    w = numbers.choice([w, w, numbers.randint(1, h + d - 1)])
    return f"P,{nodes},{h},{w},{d},{end}\n" + "".join(f"C,{tick},{node}\n" for tick, node in crashes)


def length_for(numbers, files):
    """A turn length: any, the ends of the range, or one by which a file's events are a whole number of turns."""
    totals = [Rehearsal(0, file).left for file in files]
    whole = [n for total in totals for n in range(1, min(total, 1000) + 1) if total % n == 0] or [1]
    return numbers.choice([1, 1000, numbers.randint(1, 1000), numbers.choice(whole), max(whole)])


def against(program, folder, seed, count):
    met = set()
    for index in range(count):
        numbers = random.Random(seed * 1000003 + index)
        files = [f"{folder}/turns-{place}.run" for place in range(numbers.choice([1, 2, 3, 3, 3, 8]))]
        for file in files:
            with open(file, "w") as to:
                to.write(generated(numbers))
        length = length_for(numbers, files)
        turns = numbers.choice([1, 2, len(files), 3 * len(files), numbers.randint(1, 40), 10**16])
        turns *= 10 if length < 10 else 1  # else there are very many calls
        met |= {name for name, so in (("one file", len(files) == 1), ("eight files", len(files) == 8), ("one turn a call", turns == 1)) if so}
        expected, status = printed(files, length, turns, met)
        command = [program, str(length), str(turns), *files]
        try:
            done = subprocess.run(command, capture_output=True, text=True, timeout=60)
        except subprocess.TimeoutExpired:
            sys.exit(f"turns: seed {seed} index {index}: {' '.join(command)}: no end after 60 s")
        if (done.stdout, done.stderr, done.returncode) != (expected, "", status):
            said = f"{done.stdout}{done.stderr}but by the logs\n{expected}"
            sys.exit(f"turns: seed {seed} index {index}: {' '.join(command)}: status {done.returncode}\n{said}")
    if count >= 60 and met != WANTED:
        sys.exit(f"turns: seed {seed} does not meet {sorted(WANTED - met)}")


def main():
    arguments = sys.argv[1:]
    if arguments[:1] == ["--against"]:
        against(arguments[1], arguments[2], int(arguments[3]), int(arguments[4]))
    else:
        sys.stdout.write(printed(arguments[2:], int(arguments[0]), int(arguments[1]), set())[0])


main()
