"""Computes the tables of the planner's program anew, from the rehearsal program's logs alone.

Usage: tests/planner.py [--each] [W ..] < RUN-FILE            writes the table
       tests/planner.py --against PROGRAM SEED COUNT          compares the program's tables for generated run files
REHEARSE names another rehearsal program.

Where the end tick comes first, the file is rehearsed once more up to the bound, by which all must know. A log that ends in 8,0 says nothing of
what would have come. Of a W below H + D, a short one, the log says which live nodes are listed: its C lines who has
crashed, its last column who is listed. Of a longer one it must say that none is.
"""
import os
import random
import subprocess
import sys

REHEARSE = os.environ.get("REHEARSE", "target/bin/rehearse")
MEANINGS = {
    "3": "a number out of range, a node not below N, or a crash after the end tick",
    "8": "more than 2,048 messages would be in flight",
}
KNOWN, NOT_YET, FALSE, REFUSED = range(4)
WORDS = ["", "not yet", "false", "refused"]
LISTINGS = "first: tick at which a live node is first listed, live: the most at one time, false: events that list one"
# Shapes of generated files, one after another: two thirds have a long W.
SHAPES = [shape for short in ("quick", "late", "full", "quiet", "short") for shape in ("long", short, "long")]
NOTHING = "nothing to rehearse: no node crashes\n"
# What generated files have to come to.
WANTED = {"not yet", "false", "refused", "never", "after tick", "Q,", "no crash", "short and ticks", "mixed", "order"}


def run(program, text):
    return subprocess.run(program, input=text, capture_output=True, text=True)


def log_of(nodes, h, w, d, end, ring, crashes, delays):
    lines = [f"P,{nodes},{h},{w},{d},{end}"] + ring + [f"C,{tick},{node}" for tick, node in crashes] + delays
    return [line.split(",") for line in run([REHEARSE], "".join(line + "\n" for line in lines)).stdout.splitlines()]


def events_of(log):
    """Letter, tick, node and list of each event; a K line is part of the event before it."""
    for fields in log:
        if len(fields) == 5 and fields[0] not in "KEF":
            yield fields[0], int(fields[1]), int(fields[2]), int(fields[4], 16)


def follow(log, nodes, crashed):
    """The tick from which on all know, or none; the survivors' lists at the end."""
    lists = {node: 0 for node in range(nodes) if node not in crashed}
    whole = sum(1 << node for node in crashed)
    down, known = 0, None
    for letter, tick, node, now in events_of(log):
        if letter != "C" and lists.get(node, now) == now:
            continue
        down += letter == "C"
        lists.update({node: now} if node in lists else {})
        if down < len(crashed) or any(lists[node] != whole for node in lists):
            known = None
        elif known is None:
            known = tick
    return known, lists


def listings(log, nodes):
    """The first tick at which a live node is listed; the most of them at one time; how many events list one."""
    lists, alive = dict.fromkeys(range(nodes), 0), set(range(nodes))
    first, most, count = None, 0, 0
    for letter, tick, node, now in events_of(log):
        if letter == "C":
            alive.remove(node)
        if letter != "C" and now == lists[node]:
            continue
        if any(now >> other & 1 and not lists[node] >> other & 1 for other in alive):
            first, count = tick if first is None else first, count + 1
        lists[node], together = now, 0
        for by in alive:
            together |= lists[by]
        most = max(most, sum(together >> other & 1 for other in alive))
    return first, most, count


def nodes_text(nodes):
    ranges = []
    for node in sorted(nodes):
        if ranges and ranges[-1][-1] == node - 1:
            ranges[-1].append(node)
        else:
            ranges.append([node])
    return ",".join(str(r[0]) if len(r) == 1 else f"{r[0]}-{r[-1]}" for r in ranges)


def lacking_text(lists, crashed):
    groups = {}
    for node, now in lists.items():
        groups.setdefault(tuple(c for c in sorted(crashed) if not now >> c & 1), []).append(node)
    return "; ".join(
        f"{nodes_text(who)} {'lacks' if len(who) == 1 else 'lack'} {nodes_text(what)}" for what, who in groups.items() if what
    )


def bound(nodes, h, w, d, deaths):
    """By how many ticks after the last crash every list is complete: request 107."""
    return 2 * w * deaths + d + (nodes - deaths - 1) * (h + d)


def refusal(log, short):
    number, line = log[-1]
    last = max((tick for _, tick, _, _ in events_of(log)), default=0)
    return f"  {number},{line}: {MEANINGS[number]}" + f", after tick {last}" * (short and number == "8")


def outcome(plan, w, shift):
    """Kind, ticks, what is said of live nodes on lists, and the words after the row."""
    nodes, h, _, d, end, ring, crashes, delays = plan
    crashes = [(tick + shift, node) for tick, node in crashes]
    crashed, crash, short = {node for _, node in crashes}, crashes[-1][0] if crashes else 0, w < h + d
    log = log_of(nodes, h, w, d, end, ring, crashes, delays)
    known, lists = follow(log, nodes, crashed)
    listed = listings(log, nodes)
    if not short and listed != (None, 0, 0):
        sys.exit(f"planner: W {w} shift {shift}: a live node is listed")
    if len(log[-1]) == 2 and log[-1] != ["8", "0"]:
        return REFUSED, 0, None, refusal(log, short)
    if len(log[-1]) == 2 and (short or known is None or not crashes):
        return REFUSED, 0, listed, refusal(log, short)
    if not crashes or listed[0] is not None:
        return FALSE if listed[0] is not None else KNOWN, 0, listed, ""
    if known is not None:
        if not short and known - crash > bound(nodes, h, w, d, len(crashed)):
            sys.exit(f"planner: W {w} shift {shift}: some list is short at the bound")
        return KNOWN, known - crash, listed, ""
    if not short:
        later = log_of(nodes, h, w, d, crash + bound(nodes, h, w, d, len(crashed)), ring, crashes, delays)
        if len(later[-1]) == 5 and follow(later, nodes, crashed)[0] is None:
            sys.exit(f"planner: W {w} shift {shift}: some list is short at the bound")
    return NOT_YET, end - crash, listed, f"  {lacking_text(lists, crashed)} at the end tick, after {end - crash} ticks"


def rank(found):
    """How bad it is."""
    kind, ticks, listed, _ = found
    first, most, count = listed or (None, 0, 0)
    return kind, ticks if kind == KNOWN else 0, most, count, -(first or 0)


def column(shift, found):
    return f"{found[1] if found[0] == KNOWN else WORDS[found[0]]:>10}{shift:>8}"


def three(listed):
    first, most, count = listed or "---"
    return f"{'never' if first is None else first:>10}{most:>8}{count:>8}"


def read(text):
    """The plan of a run file: the P line's numbers, Q line, crashes, L lines."""
    lines = text.splitlines()
    crashes = [tuple(int(field) for field in line.split(",")[1:]) for line in lines if line[0] == "C"]
    of_letter = {letter: [line for line in lines if line[0] == letter] for letter in "QL"}
    return *(int(field) for field in lines[0].split(",")[1:]), of_letter["Q"], crashes, of_letter["L"]


def rows_of(plan):
    """The time-outs where none is given."""
    h, own, d = plan[1:4]
    return [own, h + d] if own < h + d else sorted({*range(h + d, own, h), own})


def quiet_table(plan, time_outs):
    table = f"No node crashes: each node that is listed lives\n{LISTINGS}\n     W     first    live   false\n"
    for w in time_outs:
        _, _, listed, why = outcome(plan, w, 0)
        table += f"{w:>6}{three(listed)}{why}\n"
    return table


def tables(text, time_outs):
    """The table with a row for each W, and the one with a row for each shift."""
    plan = read(text)
    nodes, h, _, d, _, _, crashes, _ = plan
    time_outs = time_outs or rows_of(plan)
    short = any(w < h + d for w in time_outs)
    if not crashes:
        return [quiet_table(plan, time_outs) if short else ""] * 2
    head = (
        f"Ticks from the last crash until every survivor lists {nodes_text(node for _, node in crashes)}"
        f", with the crashes shifted by 0 to {h - 1} ticks\n"
    )
    right = "     first    live   false\n" if short else "\n"
    each = head + f"{LISTINGS}\n" * short + "     W     ticks   shift     bound" + right
    table = head + f"{LISTINGS}; of the worst\n" * short
    table += "     W     worst   shift      best   shift     bound" + right
    for w in time_outs:
        found = [outcome(plan, w, shift) for shift in range(h)]
        ranks = [rank(one) for one in found]
        worst, best = ranks.index(max(ranks)), ranks.index(min(ranks))
        by = f"{bound(nodes, h, w, d, len(crashes)) if h + d <= w <= 65535 else 'none':>10}"
        ends = [by + three(listed) * short + why + "\n" for _, _, listed, why in found]
        table += f"{w:>6}{column(worst, found[worst])}{column(best, found[best])}{ends[worst]}"
        each += "".join(f"{w:>6}{column(shift, one)}{ends[shift]}" for shift, one in enumerate(found))
    return table, each


def timing(numbers, shape):
    """N, H, W and D of a small ring, or of one with as many nodes as come to 8,0."""
    nodes, h, d = numbers.randint(2, 12), numbers.randint(1, 6), numbers.randint(1, 5)
    if shape == "long":
        return nodes, h, h + d + numbers.choice([0, 1, numbers.randint(0, 12)]), d
    if shape == "full":
        nodes, h, d = numbers.randint(40, 48), numbers.randint(1, 3), numbers.randint(9, 12)
    if shape == "late":
        d = numbers.randint(3, 6)
        return nodes, h, h + d - 2, d
    return nodes, h, numbers.choice([h + d - 1, h + d - 1, max(1, h + d - 2), numbers.randint(1, h + d - 1)]), d


def delays_for(numbers, shape, nodes, d):
    """Single delays. With quick messages a short W will do, until one is late, or until all are from then on."""
    count = numbers.choice([0, 0, 20, 20 if shape == "full" else 200])
    some = {number: numbers.randint(1, d) for number in numbers.sample(range(400), count)}
    if shape == "quick":
        some |= {number: 1 for number in range(numbers.choice([nodes, 300, 2048, 2048]))}
    if shape == "late":
        some = {number: 1 for number in range(2048)}
        some |= {number: d for number in numbers.sample(range(300), numbers.randint(1, 9))}
    return some


def generated(numbers, shape):
    """A run file, half of them in another order: crashes close together or apart, an end tick that may come early."""
    nodes, h, w, d = timing(numbers, shape)
    crashes = 0 if shape == "quiet" else min(numbers.randint(1, nodes - 1), 11)
    first, spread = numbers.randint(0, 40), numbers.choice([0, 0, 3, w, 3 * w])
    rows = sorted((first + numbers.randint(0, spread), node) for node in numbers.sample(range(nodes), crashes))
    long = 4 * w * (crashes + 2)
    early = [] if shape == "full" else [numbers.randint(0, h // 2), numbers.randint(0, long // 2)]
    end = (rows[-1][0] if rows else first) + numbers.choice([*early, long, long])
    ring = numbers.choice([[], numbers.sample(range(nodes), nodes)])
    return (
        f"P,{nodes},{h},{w},{d},{end}\n"
        + ("Q," + ",".join(map(str, ring)) + "\n") * bool(ring)
        + "".join(f"C,{tick},{node}\n" for tick, node in rows)
        + "".join(f"L,{number},{delay}\n" for number, delay in sorted(delays_for(numbers, shape, nodes, d).items()))
    )


def time_outs_for(numbers, text):
    """Mostly none; else a few around H + D, in any order."""
    _, h, _, d, *_ = read(text)
    few = [max(0, h + d + numbers.randint(-3, 2)) for _ in range(numbers.randint(1, 3))]
    return numbers.choice([[], [], few])


def met_in(text, time_outs, table, each):
    """What of WANTED comes up: words in rows, and kinds of files and tables."""
    _, h, _, d, _, _, crashes, _ = read(text)
    rows = [line.split() for line in (table + each).splitlines() if line.split()[0].isdigit()]
    met = {word for word in ("not yet", "refused", "after tick") if any(word in " ".join(row) for row in rows)}
    met |= {word for word in ("false", "never") if any(word in row for row in rows)}
    met |= {"Q,"} if "Q," in text else set()
    met |= {"no crash"} if table and not crashes else set()
    met |= {"mixed"} if len({int(row[0]) < h + d for row in rows}) == 2 else set()
    met |= {"short and ticks"} if any(int(row[0]) < h + d and row[1].isdigit() for row in rows) and crashes else set()
    return met | ({"order"} if time_outs != sorted(time_outs) else set())


def against(program, seed, count):
    met = set()
    for index in range(count):
        numbers = random.Random(seed * 1000003 + index)
        text = generated(numbers, SHAPES[index % len(SHAPES)])
        time_outs = time_outs_for(numbers, text)
        both = tables(text, time_outs)
        met |= met_in(text, time_outs, *both)
        for option, expected in zip(([], ["--each"]), both):
            done = run([program, *option, *map(str, time_outs)], text)
            status = expected == "" or any(by in expected for by in MEANINGS.values())
            if (done.stdout, done.stderr, done.returncode) != (expected, "" if expected else NOTHING, status):
                said = f"{text}{done.stdout}{done.stderr}but by the logs\n{expected}"
                sys.exit(f"planner: seed {seed} index {index} W {time_outs}: status {done.returncode}\n{said}")
    if count >= 60 and met != WANTED:
        sys.exit(f"planner: seed {seed} does not meet {sorted(WANTED - met)}")


def main():
    arguments = sys.argv[1:]
    if arguments[:1] == ["--against"]:
        against(arguments[1], int(arguments[2]), int(arguments[3]))
    else:
        each = arguments[:1] == ["--each"]
        sys.stdout.write(tables(sys.stdin.read(), [int(w) for w in arguments[each:]])[each])


main()
