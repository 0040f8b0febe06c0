"""Holds what tools/timeline.py draws and says against the lines of logs.

Usage: timeline.py SIMULATE DIRECTORY SHOWN SHORT FILE..., the simulator's program, a directory for pictures, the run
files of the two committed pictures, the second of which has W below H + D, and more run files, good and damaged. Stops
at the first difference.
"""
import functools
import os
import random
import re
import resource
import subprocess
import sys
from collections import Counter, defaultdict
from xml.etree import ElementTree

SVG = "{http://www.w3.org/2000/svg}"
LETTER = 0.55  # width of a letter, as a share of the font's size
simulate, directory, shown, short, *files = sys.argv[1:]
place = os.path.join(directory, "picture.svg")
rehearsed = os.path.join(directory, "rehearsed.run")
seen = Counter()


def check(holds, words):
    if not holds:
        sys.exit(f"timeline: {words}")


def log_of(run_file):
    return subprocess.run([simulate], input=run_file, capture_output=True, check=True).stdout


def timeline(log, *arguments, limit=None):
    """Runs the script; a limit is that of the bytes it may write to a file."""
    bounds = (lambda: resource.setrlimit(resource.RLIMIT_FSIZE, (limit, limit))) if limit else None
    done = subprocess.run([sys.executable, "tools/timeline.py", *arguments], input=log, capture_output=True, preexec_fn=bounds)
    check(b"Traceback" not in done.stderr, f"timeline.py fails on {log[:200]!r}: {done.stderr.decode()}")
    return done


def kept(run_file):
    """The path of a run file, for the script's third argument."""
    with open(rehearsed, "wb") as file:
        file.write(run_file)
    return rehearsed


def drawn(log, status=0, run_file=None):
    """The picture of a log, and of its run file where one is given; nothing else is left beside it."""
    more = [] if run_file is None else [kept(run_file)]
    before = sorted(os.listdir(directory))
    done = timeline(log, "-", place, *more)
    check(done.returncode == status, f"status {done.returncode}, not {status}, for {log[:200]!r}: {done.stderr.decode()}")
    check(done.stdout == b"" and (status == 0) == (done.stderr == b""), f"words where none belong: {done.stdout[:200]} {done.stderr}")
    check(sorted(os.listdir(directory)) == sorted(before + ["picture.svg"]), "a file is left beside the picture")
    with open(place, "rb") as file:
        picture = file.read()
    os.remove(place)
    return picture


def refused(log, *words, arguments=("-", place), limit=None):
    """Nothing is drawn, no file is made, and standard error has these words."""
    before = sorted(os.listdir(directory))
    done = timeline(log, *arguments, limit=limit)
    said = done.stderr.decode()
    check(done.returncode == 1 and done.stdout == b"", f"{log[-200:]!r} is not refused: status {done.returncode}")
    check(sorted(os.listdir(directory)) == before, f"a file is left by the refusal of {log[-200:]!r}")
    for word in words:
        check(word in said, f"the refusal of {log[-200:]!r} does not say {word!r}: {said}")


# ---- what is said


REFUSALS = {
    1: ["no bytes", "65,536"],
    2: ["form", "carriage return", "no line feed after the last line", "blank line", "space", "byte order mark", "P, Q, C, L"],
    3: ["range", "not below N"],
    4: ["W is below H + D", "Only earlier rehearsal programs refuse that", "rehearse the run file again"],
    5: ["rise", "twice"],
    6: ["2,048 L lines"],
    7: ["store"],
    8: ["2,048 messages", "in flight"],
    13: ["the Q line does not name each node once"],
}


def refusals(log):
    for number, words in REFUSALS.items():
        refused(b"%d,0\n" % number, f"refused by {number}:", *words)
        refused(b"%d,17\n" % number, f"refused by {number} at line 17 of the run file:", *words)
        refused(b"%d,0\n" % number, *words, arguments=())
    refused(b"99,2\n", "refused by 99 at line 2", "no words")
    for run_file in [b"P,2,2,3,1,6\r\n", b"P,2,2,3,1,6", b"P,2,2,3,1,6\n\n", b"P,2, 2,3,1,6\n", b"\xef\xbb\xbfP,2,2,3,1,6\n"]:
        refused(log_of(run_file), "refused by 2 at line", "carriage return")
    refused(log_of(b"P,3,2,3,1,6\nQ,0,2,0\n"), "refused by 13 at line 2", "each node once")
    with open(place, "wb") as file:
        file.write(b"an older picture")
    refused(b"4,1\n", "nothing is drawn")
    refused(log, "File too large", limit=2000)
    with open(place, "rb") as file:
        check(file.read() == b"an older picture", "a refusal changes an older picture")
    timeline(log, "-", place)
    with open(place, "rb") as file:
        check(file.read().endswith(b"</svg>\n"), "a picture does not take an older one's place")
    os.remove(place)
    refused(log, "File too large", limit=2000)


def incomplete(log):
    """Cut off at each byte of the last line, after a line now and then, and somewhere in a line."""
    lines = log.splitlines(keepends=True)
    last = len(log) - len(lines[-1])
    refused(b"", "empty", "ends before its last line")
    for size in [*range(last, len(log)), *range(1, last, 197)]:
        refused(log[:size], "the log ends before its last line")
    for count in range(1, len(lines), 20):
        refused(b"".join(lines[:count]), "the log ends before its last line")
    for count, line in enumerate(lines):
        if line[:1] == b"K":
            refused(b"".join(lines[:count]), "the log ends before its last line")
    refused(b"".join(line for line in lines if line[:1] != b"C"), "beginning may be missing")


def strange(log):
    lines = log.splitlines(keepends=True)
    refused(lines[0] + b"Z,6,0,1,0000000000000002\n" + b"".join(lines[1:]), "line 2 has the letter Z", "C H O R X W S K E F")
    for line in [b"S,2,0,1,7,0000000000000000\n", b"S,2,0,0000000000000000\n", b"S,2,0,1,0000000000000000\r\n", b"S,02,0,1,0000000000000000\n"]:
        refused(line + log, "line 1 is no log line")
    refused(b"S,2,64,1,0000000000000000\n" + log, "line 1 has a number outside its range")
    refused(lines[-2] + log, "line 2 has an earlier tick")
    refused(log + lines[-1], f"line {len(lines)} is the last of a log", f"line {len(lines) + 1} follows it")
    refused(log + b"F" + lines[-1][1:], f"line {len(lines)} is the last of a log", f"line {len(lines) + 1} follows it")
    refused(log + b"8,0\n", f"line {len(lines)} is the last of a log", f"line {len(lines) + 1} follows it")
    refused(b"4,1\n" + log, "line 1 is no log line")
    refused(log + b"4,1\n", f"line {len(lines) + 1} is no log line")
    refused(b"P,2,2,3,1,6\nC,3,1\n", "line 1 is no log line", "run file")
    refused(b"S,2,9,0,0000000000000000\n" + log, "names node 9", "counts 6 nodes")
    refused(log, "usage", arguments=("-", place, shown, "more"))
    refused(log, "absent: No such file", arguments=(os.path.join(directory, "absent"), place))
    refused(log, "absent: No such file", arguments=("-", place, os.path.join(directory, "absent")))
    refused(log, "absent/picture.svg: No such file", arguments=("-", os.path.join(directory, "absent", "picture.svg")))
    refused(log, "is no file", arguments=("-", directory))


def without_its_line(log):
    """K lines that are not the second line of a move, moves without one, and an O from a node that has not moved."""
    lines = log.decode().splitlines(keepends=True)
    at = next(place for place, line in enumerate(lines) if line[0] == "K")
    before, after = lines[:at], lines[at + 1 :]
    _, tick, node, passed, dead = lines[at].strip().split(",")
    check(before[-1][0] == "W" and passed == "1" and members(int(dead, 16)) == [2], "the cases of K lines are not made of the shown picture's first")

    def turned_down(number, words, *changed):
        refused("".join(changed).encode(), f"line {number}", words)

    belongs = "is a K line, but the line before it is no W or R line of the same tick, node and list"
    for line in [f"K,{int(tick) + 1},{node},1,{dead}", f"K,{tick},{int(node) + 1},1,{dead}", f"K,{tick},{node},1,{0:016x}", f"K,{tick},{node},1,{6:016x}"]:
        turned_down(at + 1, belongs, *before, line + "\n", *after)
    for number in [0, 2, 63]:
        turned_down(at + 1, f"has a number outside its range: {number} nodes passed, 1 listed", *before, f"K,{tick},{node},{number},{dead}\n", *after)
    turned_down(at + 1, "has a number outside its range", *before, f"K,{tick},{node},64,{dead}\n", *after)
    turned_down(at + 2, belongs, *before, lines[at], lines[at], *after)
    turned_down(1, belongs, lines[at], *lines)
    for letter in "CHOXS":
        place = next(place for place, line in enumerate(lines) if line[0] == letter)
        turned_down(place + 2, belongs, *lines[: place + 1], "K" + lines[place][1:], *lines[place + 1 :])
    turned_down(at, "has no K line after it: the log is from before K lines", *before, *after)
    turned_down(at, "has no K line after it: the log is from before K lines", *(line for line in lines if line[0] != "K"))
    turned_down(at, "has no K line after it", *before, "8,0\n")
    first = next(place for place, line in enumerate(lines) if line[0] == "O")
    sender = lines[first].split(",")[3]
    turned_down(1, f"node {sender} sends an O, but no K line says that it has moved", "O,0" + lines[first][lines[first].index(",", 2) :], *lines)


def forms(log):
    """All forms of the command give the same picture."""
    picture, saved = drawn(log), os.path.join(directory, "saved.log")
    with open(saved, "wb") as file:
        file.write(log)
    for arguments in [(), ("-",), ("-", "-"), (saved,), (saved, "-"), ("-", "-", shown), (saved, "-", shown)]:
        check(timeline(log, *arguments).stdout == picture, f"another picture by the arguments {arguments}")
    for arguments in [(saved, place), (saved, place, shown)]:
        timeline(b"", *arguments)
        with open(place, "rb") as file:
            check(file.read() == picture, f"another picture by the arguments {arguments}")
        os.remove(place)
    os.remove(saved)
    check(b"Usage" in timeline(b"", "--help").stdout, "--help does not help")


def other_run_files():
    """Run files that cannot be the log's: the form of P and Q, the number of nodes, and a ring that the log's neighbours do not have."""
    run_file = b"P,4,2,9,3,60\nQ,2,0,3,1\nC,20,3\n"
    log = log_of(run_file)
    for text, *words in [
        (b"", "no P line"),
        (log, "no P line", "S,2,0"),
        (b"P,4,2,9,3,60\r\nQ,2,0,3,1\n", "no P line"),
        (b"P,4,2,9,3\nQ,2,0,3,1\n", "no P line"),
        (b"Q,2,0,3,1\nP,4,2,9,3,60\n", "no P line"),
        (b"P,5,2,9,3,60\nQ,2,0,3,1,4\n", "N = 5", "are 4"),
        (b"P,3,2,9,3,60\nQ,2,0,1\n", "N = 3", "are 4"),
        (b"P,4,2,9,3,60\nQ,2,0,3\n", "each node once"),
        (b"P,4,2,9,3,60\nQ,2,0,3,1,2\n", "each node once"),
        (b"P,4,2,9,3,60\nQ,2,0,3,3\n", "each node once"),
        (b"P,4,2,9,3,60\nQ,2,0,3,4\n", "each node once"),
        (b"P,4,2,9,3,60\nQ,2,0,3,01\n", "each node once"),
        (b"P,4,2,9,3,60\nQ,2,0,3,1\r\n", "each node once"),
        (b"P,4,2,9,3,60\nQ\n", "each node once"),
        (b"P,4,2,9,3,60\nQ,1,3,0,2\n", "by line 1 of the log node 3 follows node 0", "by the run file node 2"),
        (b"P,4,2,9,3,60\nQ,0,1,2,3\n", "by line 1 of the log node 3 follows node 0", "by the run file node 1"),
        (b"P,4,2,9,3,60\nC,20,3\n", "by line 1 of the log node 3 follows node 0", "by the run file node 1"),
    ]:
        refused(log, "the run file is not that of the log", *words, arguments=("-", place, kept(text)))
    # The last line's letter is by the P line.
    above, ended = b"P,4,2,5,3,60\nQ,2,0,3,1\nC,20,3\n", [b"P,4,2,4,3,60\n", b"P,4,2,1,3,60\n", b"P,4,255,9,255,60\n"]
    drawn(log, run_file=above)
    for start in ended:
        text = start + b"Q,2,0,3,1\n"
        refused(log, "W is below H + D, but the log ends in E", arguments=("-", place, kept(text)))
        drawn(log.replace(b"\nE,", b"\nF,"), run_file=text)
    words = "W is not below H + D, but the log ends in F"
    refused(log.replace(b"\nE,", b"\nF,"), words, arguments=("-", place, kept(above)))
    # No heartbeat is sent before the first watch expires: that watch is on the node before.
    log = b"C,3,2,2,0000000000000000\nW,6,1,2,0000000000000004\nK,6,1,1,0000000000000004\nE,6,2,0,0000000000000004\n"
    drawn(log, run_file=b"P,3,9,12,3,60\nQ,2,1,0\n")
    refused(log, "by line 2 of the log node 1 follows node 2", "by the run file node 0", arguments=("-", place, kept(b"P,3,9,12,3,60\n")))
    # So are all that expire in that tick.
    crashes, watches = b"C,3,0,0,0000000000000000\nC,3,2,2,0000000000000000\n", [b"W,6,1,0,0000000000000001\n", b"W,6,3,2,0000000000000004\n"]
    numbered = [b"K,6,1,1,0000000000000001\n", b"K,6,3,1,0000000000000004\n"]
    log = crashes + watches[0] + numbered[0] + watches[1] + numbered[1] + b"E,6,2,0,0000000000000005\n"
    drawn(log, run_file=b"P,4,9,12,3,60\n")
    arguments = "-", place, kept(b"P,4,9,12,3,60\nQ,0,1,3,2\n")
    refused(log, "by line 5 of the log node 3 follows node 2", "by the run file node 0", arguments=arguments)
    os.remove(rehearsed)


# ---- what the log says


def members(dead):
    return [node for node in range(64) if dead >> node & 1]


@functools.lru_cache(maxsize=1)
def fields(log):
    """The columns of the events' lines, without the last line."""
    rows = [line.split(",") for line in log.decode().splitlines()[:-1]]
    return [(letter, int(tick), int(node), int(other), int(dead, 16)) for letter, tick, node, other, dead in rows]


@functools.lru_cache(maxsize=1)
def listings(log):
    """Each event after which a list has more in it: the place of its line, its columns up to the other node, and what
    is new: the crashed nodes, and the live ones, which have no C line so far."""
    lists, crashed, found = defaultdict(int), set(), []
    for place, (letter, tick, node, other, dead) in enumerate(fields(log)):
        if letter == "C":
            crashed.add(node)
        new = members(dead & ~lists[node]) if dead != lists[node] else []
        lists[node] = dead
        if new:
            gone = [one for one in new if one in crashed]
            found.append((place, (letter, tick, node, other), gone, [one for one in new if one not in crashed]))
    return found


def false_listings(log):
    """The events by which a live node is listed."""
    return [event for _, event, _, alive in listings(log) if alive]


def knowledge(nodes, log):
    """By pairs: the last of the first ticks at which a survivor lists a node that has crashed by then, unless one lists
    a live node at the end; which nodes each survivor never lists; which survivors each lists; and the crashed nodes."""
    first, crashed = {}, {}
    for letter, tick, node, other, dead in fields(log):
        if letter == "C":
            crashed[node] = tick
        for listed in range(nodes):
            if dead >> listed & 1:
                first.setdefault((node, listed), tick)
    survivors = [node for node in range(nodes) if node not in crashed]
    pairs = [(survivor, dead) for survivor in survivors for dead in crashed]
    lacking, wrong = defaultdict(set), defaultdict(set)
    for survivor, dead in pairs:
        if (survivor, dead) not in first:
            lacking[survivor].add(dead)
    for survivor, listed in first:
        if survivor in survivors and listed in survivors:
            wrong[survivor].add(listed)
    since = None if lacking or wrong or not pairs else max(max(first[pair], crashed[pair[1]]) for pair in pairs)
    return since, dict(lacking), dict(wrong), set(crashed)


def ring_of(run_file):
    """The nodes in the ring's order."""
    lines = run_file.decode("ascii", "replace").split("\n")
    ring_line = lines[1] if lines[1:] and lines[1][:2] == "Q," else "Q," + ",".join(map(str, range(int(lines[0].split(",")[1]))))
    return [int(node) for node in ring_line.split(",")[1:]]


def found(ring, left, dead):
    """The first node that the list does not hold, going back from one that is left, and how many listed ones are passed."""
    at = ring.index(left)
    passed = next(back for back in range(len(ring)) if not dead >> ring[at - back] & 1)
    return ring[at - passed], passed


def moves(ring, log, name):
    """Each event by which a node leaves its emitter: letter, tick, node, whom it leaves, whom it takes and how many it passes. A watch expires on the
    emitter. Each of these lines, and no other, has its K line after it."""
    emitters = {node: ring[place - 1] for place, node in enumerate(ring)}
    lines = list(fields(log))
    for (letter, tick, node, other, dead), after in zip(lines, [*lines[1:], None]):
        check(letter != "W" or emitters[node] == other, f"{name}: at tick {tick} node {node} does not expire on its emitter")
        number = None
        if letter in "WR" and emitters[node] == other != node:
            emitters[node], passed = found(ring, other, dead)
            number = "K", tick, node, passed, dead
            yield letter, tick, node, other, emitters[node], passed
        check(number == (after if after and after[0] == "K" else None), f"{name}: after {letter} of node {node} at tick {tick} {after}, not {number}")


# ---- what the picture says


class Seen:
    """A picture's elements, by class."""

    def __init__(self, picture):
        self.root = ElementTree.fromstring(picture)
        self.width, self.height = float(self.root.get("width")), float(self.root.get("height"))
        style = self.root.find(SVG + "style").text
        self.usual = float(re.search(r"(?m)^text \{[^}]*font-size: (\d+)px", style)[1])
        self.sizes = {}
        for names, size in re.findall(r"(?m)^([^{}]*)\{[^}]*font-size: (\d+)px", style):
            self.sizes.update({name.strip(" ."): float(size) for name in names.split(",")})
        # The colours of each class: its fill, then its stroke.
        self.colours = {}
        for names, rules in re.findall(r"(?m)^([^{}]*)\{([^}]*)\}", style):
            found = [re.search(rf"(?:^|[ ;]){part}: (#\w+)", rules) for part in ("fill", "stroke")]
            for name in names.split(","):
                self.colours[name.strip(" .")] = [colour[1] for colour in found if colour]
        self.texts = list(self.root.iter(SVG + "text"))
        # The linear map from ticks to places, by the labels; and the rows.
        ticks = [(int(text.text), float(text.get("x"))) for text in self.of("tick")]
        self.zero = ticks[0][1]
        self.scale = (ticks[-1][1] - self.zero) / ticks[-1][0] if len(ticks) > 1 else 0
        self.rows = {int(text.text.split()[1]): float(text.get("y")) - 4 for text in self.of("node")}

    def of(self, kind):
        return [text for text in self.texts if kind in text.get("class").split()]

    def words(self, kind):
        return " ".join(text.text for text in self.of(kind))

    def titles(self, part):
        return [title.text for title in self.root.iter(SVG + "title") if part in title.text]

    def size(self, text):
        return min((self.sizes[name] for name in text.get("class").split() if name in self.sizes), default=self.usual)

    def box(self, text):
        width, size, x, y = LETTER * self.size(text) * len(text.text), self.size(text), float(text.get("x")), float(text.get("y"))
        left = {"start": x, "middle": x - width / 2, "end": x - width}[text.get("text-anchor")]
        return left, y - 0.75 * size, left + width, y + 0.2 * size

    def across(self, tick):
        return round(self.zero + tick * self.scale, 1)

    def row(self, y):
        """The node in whose row this stands, if any."""
        node = min(self.rows, key=lambda node: abs(self.rows[node] - y))
        return node if abs(self.rows[node] - y) <= 6 else None

    def points(self, kind):
        """The points of each line or path of a class."""
        found = []
        for element in self.root.iter():
            if element.get("class") == kind and element.tag == SVG + "line":
                found.append([(float(element.get("x" + end)), float(element.get("y" + end))) for end in "12"])
            elif element.get("class") == kind:
                found.append([tuple(map(float, point.split())) for point in element.get("d")[1:-2].split(" L")])
        return found

    def rects(self, kind):
        """The rectangles of a class above the legend, each as its row and its place across, its top and its height."""
        found = []
        for rect in self.root.iter(SVG + "rect"):
            if rect.get("class") == kind:
                x, y, height = (float(rect.get(name)) for name in ("x", "y", "height"))
                below = min(((y - row, node) for node, row in self.rows.items() if y > row), default=None)
                if below and y < max(self.rows.values()) + 22:
                    found.append(((below[1], x), y, height))
        return found

    def marks(self, kind, corners=range(2, 5)):
        """The middles of the marks above the legend that have so many points, each as its row and its place across."""
        middles = [[(min(values) + max(values)) / 2 for values in zip(*points)] for points in self.points(kind) if len(points) in corners]
        places = [(self.row(y), round(x, 1)) for x, y in middles]
        return [(row, x) for row, x in places if row is not None]


def close(ones, others):
    """The same places, up to the rounding of a tick's place."""
    return len(ones) == len(others) and all(a[:-1] == b[:-1] and abs(a[-1] - b[-1]) < 0.3 for a, b in zip(sorted(ones), sorted(others)))


MARKS = [("S", "sent"), ("H", "heard"), ("W", "watch"), ("W false", "watch-false"), ("C", "crash"), ("X", "dropped")]
MARKS += [("R", "report"), ("R false", "report-false"), ("R known", "known")]


def every_mark(picture, log, name):
    """A false listing by a watch or a report has the mark of its letter in another class, and a report that adds
    nothing has one of its own."""
    at, new = defaultdict(list), {place: alive for place, _, _, alive in listings(log)}
    for place, (letter, tick, node, other, dead) in enumerate(fields(log)):
        kind = " false" * (letter in "WR" and bool(new.get(place))) + " known" * (letter == "R" and place not in new)
        at[letter + kind] += [(node, picture.across(tick))] * (2 if letter in "CX" else 1)
    for kind, mark in MARKS:
        check(close(picture.marks(mark), at[kind]), f"{name}: the marks of {kind} are not those of the log's lines")


def named(nodes):
    """'node 3' or 'nodes 1, 4-6'."""
    runs = []
    for node in nodes:
        if not runs or node != runs[-1][-1] + 1:
            runs.append([])
        runs[-1].append(node)
    parts = [f"{run[0]}-{run[-1]}" if len(run) > 2 else ", ".join(map(str, run)) for run in runs]
    return f"node{'s' * (len(nodes) != 1)} " + ", ".join(parts)


def every_circle(picture, log, name):
    """Round the mark of each false listing, with words where it is by a heartbeat."""
    false = [(event, dead, alive) for _, event, dead, alive in listings(log) if alive]
    places = [(float(circle.get("cy")), float(circle.get("cx"))) for circle in picture.root.iter(SVG + "circle")]
    circles = [(picture.row(y), x) for y, x in places if picture.row(y) is not None]
    wanted, titles = [(node, picture.across(tick)) for (_, tick, node, _), _, _ in false], []
    check(close(circles, wanted), f"{name}: the circles are not those of the false listings")
    check(len(places) == len(wanted) + bool(false), f"{name}: the legend is wrong about circles")
    for (letter, tick, node, other), dead, alive in false:
        seen[f"false {letter}"] += 1
        if letter == "H":
            seen["false H with a crashed node"] += bool(dead)
            listed = " and ".join([named(dead)] * bool(dead) + [named(alive)])
            what = f"by its list it lists {listed}, which {'is' if len(alive) == 1 else 'are'} alive"
            titles.append(f"tick {tick}: node {node} gets the heartbeat of node {other}, and {what}")
    told = picture.titles("gets the heartbeat")
    check(sorted(told) == sorted(titles), f"{name}: told {told}, not {titles}")
    check(len(picture.titles("alive")) == len(false), f"{name}: not each false listing, or another, is told to be one")


def legend_of_false(picture, log, name):
    """The legend has the circle and the share of live nodes where there is a false listing, and !3 where a label has
    such."""
    said, false = [text.text for text in picture.of("small")], bool(false_listings(log))
    signs = any("!" in text.text and not text.text.startswith("round") for text in picture.texts)
    circle = "round a W, R or H: false listing, of a node that is alive" + "; !3: node 3 is alive" * signs
    entries = [words for words in said if words.startswith("round")]
    check(entries == [circle] * false, f"{name}: the legend says {entries} of false listings")
    check(("share of live nodes listed" in said) == false, f"{name}: the legend is wrong about shares of live nodes")
    if false:
        another_colour(picture, name)


def another_colour(picture, name):
    """What belongs to a false listing has its colour, which no other mark has."""
    own, share = picture.colours["circle"][1], picture.colours["share"][0]
    kinds = ["watch", "report", "known", "crash", "heard", "sent", "new", "listed", "bad", "good"]
    others = {colour for kind in kinds for colour in picture.colours[kind]}
    check(own not in others and share not in others, f"{name}: false listings have another mark's colour")
    for kind in ["watch-false", "report-false", "alive"]:
        check(set(picture.colours[kind]) == {own}, f"{name}: the colour of {kind} is not that of the circles")


def every_move(picture, moved, log, name):
    """A mark with a title for each move, and a legend where an emitter is left by a report. Whom the node takes is told where the log shows it: that one
    gets the node's O, or is left by it later."""
    shown = {(other, node) for letter, _, node, other, _ in fields(log) if letter == "O"} | {(node, left) for _, _, node, left, _, _ in moved}
    titles, places, false = defaultdict(list), defaultdict(list), set(false_listings(log))
    for letter, tick, node, left, after, passed in moved:
        why = {"W": f"lists node {left}, whose heartbeat did not come", "R": f"gets the report of node {left}, its emitter"}[letter]
        if (letter, tick, node, left) in false:
            late = f"lists node {left}, which is alive but whose heartbeat did not come in time"
            why = {"W": late, "R": f"{why}, which is alive, and lists it"}[letter]
            seen[f"left falsely by {letter}"] += 1
        what = "is alone" if after == node else f"moves to node {after}" if (node, after) in shown else "moves on"
        titles[letter].append(f"tick {tick}: node {node} {why}, and {what}, passing {passed} listed node{'' if passed == 1 else 's'}")
        places[letter].append((node, picture.across(tick)))
        seen[what.split(" node")[0]] += 1
        seen["passed 1" if passed == 1 else "passed more"] += 1
    for letter, part, kind in [("W", "whose heartbeat", "watch"), ("R", ", its emitter, ", "report")]:
        told, marked = picture.titles(part), picture.marks(kind, [3]) + picture.marks(kind + "-false", [3])
        check(sorted(told) == sorted(titles[letter]), f"{name}: told {told}, not {titles[letter]}")
        check(close(marked, places[letter]), f"{name}: the marks of emitters left by {letter} are not those of the log's lines")
    left = {(letter, tick, node, emitter) for letter, tick, node, emitter, _, _ in moved}
    stays, words = [event for event in false - left if event[0] == "R"], "tick {}: node {} gets the report of node {}{}"
    wanted = [words.format(*event[1:], ", which is alive, and lists it") for event in stays]
    told = [title for title in picture.titles("gets the report") if title.endswith("alive, and lists it")]
    check(sorted(told) == sorted(wanted), f"{name}: told {told}, not {wanted}")
    legend = "R of the emitter, which is left at once" in picture.words("small")
    check(legend == bool(places["R"]), f"{name}: the legend is wrong about emitters left by a report")
    seen["left by a report"] += len(places["R"])


def every_arrow(picture, moved, log, name):
    """An arrow for each O, to its receiver, from the event by which its sender took the receiver."""
    sent, wanted, found = {(node, after): picture.across(tick) for _, tick, node, _, after, _ in moved}, [], []
    for letter, tick, node, other, dead in fields(log):
        if letter == "O":
            check((other, node) in sent, f"{name}: node {other} is not the one that takes node {node}")
            wanted.append((other, node, picture.across(tick)))
    for [(x, y), _], [(tip_x, tip_y), *_] in zip(picture.points("observer"), picture.points("head")):
        sender, receiver = picture.row(y), picture.row(tip_y)
        if sender is not None and receiver is not None:
            found.append((sender, receiver, tip_x))
            right = abs(x - sent.get((sender, receiver), -1)) < 0.3
            check(right, f"{name}: an arrow from node {sender} to {receiver} that is not from the event that sent it")
    check(close(found, wanted), f"{name}: the arrows are not those of the lines O")


def every_label(picture, moved, log, name):
    """A label stands where a list grows: what is new, while these are few, and at a move the number passed. A move has none only where the label of another
    move is in its way. The legend has a number where the rows have one."""
    passed, labels, changes = {}, [], []
    for letter, tick, node, left, _, number in moved:
        passed[letter, tick, node, left] = f"K{number}"
    for _, event, dead, alive in listings(log):
        new = " ".join(sign + ",".join(map(str, nodes)) for sign, nodes in [("+", dead), ("!", alive)] if nodes)
        changes.append((event[2], picture.across(event[1]), new, passed.get(event, "")))
    few = len(changes) <= 160
    wanted = [(node, place, f"{new} {number}".strip() if few else number, number) for node, place, new, number in changes]
    for text in picture.of("new"):
        row, x, room = picture.row(float(text.get("y")) + 7), float(text.get("x")), 8 + 8 * len(text.text)
        if row is not None:
            labels.append((row, x, x + room, text.text))
            alive = "alive" in text.get("class").split()
            check(alive == ("!" in text.text), f"{name}: the label {text.text!r} has another's colour")
            near = [place for node, place, words, _ in wanted if (node, words) == (row, text.text) and 7.7 < abs(x - place) <= 8 + room]
            check(near, f"{name}: the label {text.text!r} of node {row} stands where its list does not grow so")
    for node, place, words, number in wanted:
        room = 8 + 8 * len(words)
        near = [label for row, left, right, label in labels if row == node and left <= place + 8 + room and right >= place - room]
        check(not number or words in near or any("K" in label for label in near), f"{name}: a move of node {node} has no number {words!r}")
        seen["numbers"] += number != "" and words in near
    legend = [text.text for text in picture.of("new") if picture.row(float(text.get("y")) + 7) is None]
    numbered, room = any("K" in label for *_, label in labels), ", where there is room" * (len(labels) < sum(words != "" for _, _, words, _ in wanted))
    said = [text.text for text in picture.of("small") if text.text.startswith("K, ")]
    check(legend == ["K2"] * numbered, f"{name}: the legend is wrong about the numbers of moves")
    check(said == [f"K, move: 2 listed nodes passed, the emitter left included{room}"] * numbered, f"{name}: the legend says {said} of moves")
    said = [text.text for text in picture.of("small") if "is new in the list" in text.text]
    signs = any("+" in label for *_, label in labels)
    wanted = [f"share of the nodes listed; +3: node 3 is new in the list{room}"] * signs
    check(said == wanted, f"{name}: the legend says {said} of lists")


def every_list(picture, log, name):
    """Bands stand where a list grows or a node in it crashes, and have a part for live nodes. Each row ends in its
    node's list or crash."""
    lists, crashes, parts = [0] * len(picture.rows), {}, {}
    *_, before_last, last = log.decode().splitlines() if log.count(b"\n") > 1 else ["", log.decode().strip()]
    end = int((last if last[0] in "EF" else before_last).split(",")[1])
    for letter, tick, node, other, dead in fields(log):
        changed = {node} if dead != lists[node] else set()
        lists[node] = dead
        if letter == "C":
            crashes[node] = tick
            parts.pop((node, picture.across(tick)), None)
            changed = {holder for holder, held in enumerate(lists) if held >> node & 1}
        for holder in changed - set(crashes):
            if tick < end:
                alive = [listed for listed in members(lists[holder]) if listed not in crashes]
                parts[holder, picture.across(tick)] = len(alive) / len(members(lists[holder]))
    every_band(picture, parts, name)
    every_ending(picture, lists, crashes, picture.across(end), name)
    if last[0] in "EF":
        _, tick, survivors, flying, _ = last.split(",")
        below = "; F: the time-out W is below H + D" * (last[0] == "F")
        wanted = f"end of tick {tick}: {survivors} survivor{'s' * (survivors != '1')}, {flying} in flight{below}"
        check(wanted in [text.text for text in picture.of("small")], f"{name}: not said {wanted!r}")


def every_band(picture, parts, name):
    """The parts of live nodes are by row and place across; they stand at the lower end of their bands."""
    bands, shares = picture.rects("listed"), picture.rects("share")
    check(close([place for place, *_ in bands], list(parts)), f"{name}: the bands are not those of the lists")
    wanted, found = [place for place, part in parts.items() if part], [place for place, *_ in shares]
    check(close(found, wanted), f"{name}: the shares of live nodes are not those of the lists")
    for place, top, height in shares:
        above, size = next((above, size) for band, above, size in bands if band == place)
        part = next(part for other, part in parts.items() if close([place], [other]))
        right = abs(top + height - above - size) < 0.2 and abs(height - part * size) < 0.2
        check(right, f"{name}: a share of live nodes is {height} of {size}, not {part}")
        seen["share of live nodes"] += 1


def every_ending(picture, lists, crashes, x, name):
    """What stands right of the end in each row, and of all circles. Nodes that are alive at the end are told apart."""
    edges = [float(circle.get("cx")) + float(circle.get("r")) for circle in picture.root.iter(SVG + "circle")]
    ends = {picture.row(float(text.get("y")) - 4): text for text in picture.texts if float(text.get("x")) > x}
    for node, held in enumerate(map(members, lists)):
        alive = [listed for listed in held if listed not in crashes]
        wanted = "{" + ", ".join(f"!{one}" if one in alive else str(one) for one in held) + "}"
        if len(held) > 6:
            wanted = f"{len(held)} nodes" + (f", {len(alive)} alive" if alive else "")
        if node in crashes:
            wanted, alive = f"crashed at {crashes[node]}", []
        check(ends[node].text == wanted, f"{name}: the row of node {node} ends in {ends[node].text!r}, not {wanted!r}")
        kinds, left = ends[node].get("class").split(), float(ends[node].get("x"))
        check(all(left > edge + 3 for edge in edges), f"{name}: the list of node {node} stands in a circle")
        check(("alive" in kinds) == bool(alive), f"{name}: the list of node {node} has another's colour")


def apart(picture, name):
    """Labels do not overlap, stand inside the picture and are not small."""
    boxes = [(picture.box(text), text) for text in picture.texts]
    for place_in_list, (box, text) in enumerate(boxes):
        check(picture.size(text) >= 12, f"{name}: small letters: {text.text!r}")
        check(box[0] >= 0 and box[2] <= picture.width and box[1] >= 0 and box[3] <= picture.height, f"{name}: {text.text!r} leaves the picture")
        for other, beside in boxes[:place_in_list]:
            overlap = box[0] < other[2] and other[0] < box[2] and box[1] < other[3] and other[1] < box[3]
            check(not overlap, f"{name}: {text.text!r} overlaps {beside.text!r}")
    rows = sorted(picture.rows.values())
    for upper, lower in zip(rows, rows[1:]):
        check(lower - upper >= 18, f"{name}: rows only {lower - upper} apart")
    ticks = [(float(text.get("x")), len(text.text)) for text in picture.of("tick")]
    for (x, _), (after, letters) in zip(ticks, ticks[1:]):
        check(after - x >= 8 * letters + 6, f"{name}: ticks' labels only {after - x} apart")


def numbers(words):
    """'nodes 1, 4-6' as numbers."""
    ends = [part.split("-") for part in re.sub("nodes? ", "", words).split(", ")]
    return {node for part in ends for node in range(int(part[0]), int(part[-1]) + 1)}


def who_lacks_whom(words):
    said = {}
    for part in words[len("At the end ") : -1].split("; "):
        who, whom = re.fullmatch("(nodes? .*) lacks? (nodes? .*)", part).groups()
        said.update({node: numbers(whom) for node in numbers(who)})
    return said


def after_false(said, survivors, wrong, log, name):
    """Holds what is said of false listings against the log. Answers the words after it."""
    false = false_listings(log)
    if not false:
        check("false" not in said and "live" not in said, f"{name}: {said!r}, but there is no false listing")
        return said
    refused = log.endswith(b"8,0\n")
    words = f"{len(false)} false listing{'' if len(false) == 1 else 's'}, the first in tick {false[0][1]}"
    words += ", so the time-out W is below H + D. " if refused else ". "
    check(said.startswith(words), f"{name}: {said!r} does not begin with {words!r}")
    ending, _, rest = said[len(words) :].partition(".")
    groups = {frozenset(alive) for alive in wrong.values()}
    if not wrong:
        check(ending == "At the end no survivor lists a live node", f"{name}: {ending!r}, but none lists a live node")
        seen["no live node listed at the end"] += 1
    elif len(groups) > 6:
        words = f"At the end {len(wrong)} of {survivors} survivors list live nodes"
        check(ending == words, f"{name}: {ending!r}, but by the log {wrong}")
        seen["many list live nodes"] += 1
    else:
        told = {}
        for part in ending.removeprefix("At the end live nodes are listed: ").split("; "):
            whom, who = re.fullmatch("(nodes? .*) by (nodes? .*)", part).groups()
            told.update({node: numbers(whom) for node in numbers(who)})
        check(told == wrong, f"{name}: {ending!r}, but by the log {wrong}")
    return rest.strip()


def all_know(picture, run_file, log, name):
    nodes = int(run_file.split(b",")[1])
    since, lacking, wrong, crashed = knowledge(nodes, log)
    check(len(picture.rows) == nodes, f"{name}: {len(picture.rows)} rows for {nodes} nodes")
    lines = [element for element in picture.root.iter(SVG + "line") if element.get("class") == "all" and element.get("x1") == element.get("x2")]
    check(picture.words("good") == ("" if since is None else f"all know from tick {since}"), f"{name}: all know from {since}, not as drawn")
    check(len(lines) == (since is not None), f"{name}: the line from which all know is missing or too many")
    if lines:
        check(abs(float(lines[0].get("x1")) - picture.across(since)) < 0.3, f"{name}: all know from another tick than drawn")
    said = " ".join(text.text for text in picture.of("bad") if not text.text.startswith("Refused"))
    all_words = " ".join(text.text for text in picture.texts)
    for words, holds in [("No node crashes.", not crashed), ("No node survives.", len(crashed) == nodes)]:
        check((words in all_words) == holds, f"{name}: not said, or wrongly: {words}")
        said = said.removeprefix(words).strip()
    said = after_false(said, nodes - len(crashed), wrong, log, name)
    if lacking:
        check(said.startswith("At the end "), f"{name}: not said who lacks whom")
        check(who_lacks_whom(said) == lacking, f"{name}: {said!r}, but by the log {lacking}")
    else:
        check(said == "", f"{name}: {said!r}, but none lacks any")
    entry = "from here all survivors list all crashed nodes" + " and no live one" * bool(false_listings(log))
    entries = [text.text for text in picture.of("small") if text.text.startswith("from here")]
    check(entries == [entry] * len(lines), f"{name}: the legend says {entries} of the line")
    kind = "lack" if lacking else "none crashes" if not crashed else "none survives"
    seen["mark" if since is not None else "live nodes listed" if wrong else kind] += 1
    return since


def in_order(picture, ring, name):
    """The rows, from the top, are the nodes in this order; where it is not that of the numbers, the picture says so."""
    rows = sorted(picture.rows, key=picture.rows.get)
    check(rows == ring, f"{name}: the rows are {rows}, not {ring}")
    said = "The rows stand in the ring's order." in picture.words("faint")
    check(said == (ring != sorted(ring)), f"{name}: what is said about the rows' order is wrong")


def held(picture, run_file, ring, log, name):
    """Holds all of a picture against the log. Answers the tick of the mark."""
    letters = Counter(line[:1] for line in log.decode().splitlines())
    thin = letters["S"] + letters["H"] + letters["X"] > 8000 or letters["R"] > 8000
    check(thin == ("not all are drawn" in picture.words("faint")), f"{name}: what is said about thinning is wrong")
    if not thin:
        every_mark(picture, log, name)
    if picture.scale:
        moved = list(moves(ring, log, name))
        every_move(picture, moved, log, name)
        every_arrow(picture, moved, log, name)
        every_label(picture, moved, log, name)
        every_list(picture, log, name)
        every_circle(picture, log, name)
    legend_of_false(picture, log, name)
    apart(picture, name)
    return all_know(picture, run_file, log, name)


def whole(run_file, name, status=0, log=None):
    """Draws the log of a run file, or the one given, without and with the run file. Answers the latter picture and the tick of the mark."""
    log, ring = log or log_of(run_file), ring_of(run_file)
    by_number, by_ring = drawn(log, status), drawn(log, status, run_file)
    pictures = [(by_ring, ring, name)]
    if ring != sorted(ring):
        pictures.insert(0, (by_number, sorted(ring), f"{name}, drawn without the run file"))
        seen["shuffled"] += 1
    else:
        check(by_ring == by_number, f"{name}: another picture with the run file")
    for picture, rows, what in pictures:
        picture = Seen(picture)
        in_order(picture, rows, what)
        since = held(picture, run_file, ring, log, what)
    os.remove(rehearsed)
    return picture, since


# ---- the files


def generated():
    for path in files:
        with open(path, "rb") as file:
            run_file = file.read()
        log = log_of(run_file)
        if log.count(b",") == 1:
            refused(log, "refused by " + log.decode().split(",")[0])
            seen["refused"] += 1
        else:
            whole(run_file, path, 2 * log.endswith(b"8,0\n"))


def shuffled():
    """Rings in other orders than that of the numbers, and a run file that gives number order by a line."""
    numbers = random.Random(1)
    for nodes in (1, 2, 3, 5, 12, 20, 48, 64):
        orders = [list(range(nodes)), list(range(nodes))[::-1], numbers.sample(range(nodes), nodes)]
        crashed = sorted(numbers.sample(range(nodes), nodes // 3))
        for order in orders:
            ring_line = b"Q,%s\n" % ",".join(map(str, order)).encode()
            crashes = b"".join(b"C,%d,%d\n" % (31 + place // 3, node) for place, node in enumerate(crashed))
            whole(b"P,%d,5,12,6,200\n" % nodes + ring_line + crashes, f"{nodes} nodes in the order {order}")
    # Node 3 takes node 0 at tick 5 and node 1, which gets its O at tick 17, at tick 15; in number order it would take node 1 at tick 5.
    whole(b"P,4,3,5,2,90\nQ,2,3,1,0\nC,1,2\nC,3,0\n", "an O from the second watch")
    whole(b"P,8,2,3,1,60\nQ,0,4,2,6,1,5,3,7\nC,5,1\nC,5,6\nC,9,2\nC,20,7\n", "neighbours crash in a shuffled ring")
    whole(b"P,64,1,34,33,200\nQ,%s\nC,30,5\n" % ",".join(map(str, range(63, -1, -1))).encode(), "2,049 in flight, backwards", 2)


def left_by_a_report():
    """Two plans in which a report moves a node, in number order and with other numbers for the nodes; and moves by hand."""
    ten = b"P,10,1,5,4,60\n", [(1, 2), (1, 3), (2, 8), (7, 0), (12, 9), (16, 1)], (27, 4, 0, 9)
    nine = b"P,9,1,13,12,120\n", [(3, 4), (21, 1), (32, 3), (50, 2)], (81, 5, 1, 0)
    for start, crashes, (tick, node, left, after) in [ten, nine]:
        nodes = int(start.split(b",")[1])
        for order in [list(range(nodes)), list(range(nodes))[::-1], random.Random(2).sample(range(nodes), nodes)]:
            ring_line = b"Q,%s\n" % ",".join(map(str, order)).encode() if order != sorted(order) else b""
            rows = b"".join(b"C,%d,%d\n" % row for row in sorted((tick, order[place]) for tick, place in crashes))
            picture, _ = whole(start + ring_line + rows, f"a move by report in the order {order}")
            why = f"node {order[node]} gets the report of node {order[left]}, its emitter"
            wanted = f"tick {tick}: {why}, and moves to node {order[after]}, passing 1 listed node"
            check(picture.titles(", its emitter, ") == [wanted], f"a move by report in the order {order}: not told {wanted!r}")
    # By hand: a move over a listed node, and one by which the node is alone, as no run is known that has it. A report of the node itself is no move.
    rows = [("C,3,2,2", 0), ("C,3,3,3", 0), ("R,4,0,0", 0), ("R,5,0,2", 4), ("R,6,0,3", 12), ("K,6,0,2", 12), ("O,7,1,0", 0), ("C,8,1,1", 0)]
    rows += [("R,9,0,1", 14), ("K,9,0,1", 14), ("R,10,0,0", 14), ("E,12,1,0", 14)]
    picture, _ = whole(b"P,4,9,12,3,12\n", "alone by a report", log=by_hand(*rows))
    wanted = [
        "tick 6: node 0 gets the report of node 3, its emitter, and moves to node 1, passing 2 listed nodes",
        "tick 9: node 0 gets the report of node 1, its emitter, and is alone, passing 1 listed node",
    ]
    check(picture.titles(", its emitter, ") == wanted, f"alone by a report: not told {wanted}")


def early_crashes():
    """Nodes that crash before their first heartbeat in a shuffled ring: the log does not show all of its order, and yet which move sent each O."""
    # Node 6 expires on 3 and goes back over 2 to 7.
    whole(b"P,9,2,3,1,60\nQ,8,0,1,7,2,3,6,4,5\nC,1,0\nC,1,2\nC,1,4\nC,40,3\n", "three watches in one tick")
    # That 0 is before 4 stands in no line. Node 2 expires on 1 and goes back over these two to 3.
    whole(b"P,5,2,3,1,60\nQ,3,0,4,1,2\nC,1,0\nC,1,4\nC,40,1\n", "an order with one gap")
    # Nor that 5 is before 6: two gaps.
    picture, _ = whole(b"P,7,2,3,1,60\nQ,3,0,4,1,2,5,6\nC,1,0\nC,1,4\nC,1,5\nC,1,6\nC,40,1\n", "an order with two gaps")
    wanted = "tick 42: node 2 lists node 1, whose heartbeat did not come, and moves to node 3, passing 3 listed nodes"
    check(wanted in picture.titles("tick 42: node 2"), f"an order with two gaps: not told {wanted!r}")
    # An O that is still in flight at the end: whom the node takes is not told.
    picture, _ = whole(b"P,4,2,3,1,6\nC,3,1\n", "an O in flight")
    wanted = "tick 6: node 2 lists node 1, whose heartbeat did not come, and moves on, passing 1 listed node"
    check(picture.titles("moves") == [wanted], f"an O in flight: not told {wanted!r}")


def known_ticks():
    """Files whose ticks are known: those of README's planner, 01's first log, and some that end early or late."""
    for w, tick in [(7, 43), (12, 72), (17, 87)]:
        name = f"README's planner, W {w}"
        check(whole(b"P,6,5,%d,2,90\nC,30,1\nC,35,2\n" % w, name)[1] == tick, f"{name}: not tick {tick}")
    check(whole(b"P,6,4,7,3,60\nC,6,2\nC,30,1\n", "crashes far apart")[1] == 45, "crashes far apart: not tick 45")
    check(whole(b"P,2,2,3,1,6\nC,3,1\n", "01's log")[1] == 6, "01's log: not tick 6")
    check(whole(b"P,2,1,2,1,2\nC,0,1\n", "a short log")[1] == 2, "a short log: not tick 2")
    check(whole(b"P,6,5,17,2,86\nC,30,1\nC,35,2\n", "one tick too few")[1] is None, "one tick too few: a mark")
    check("No node crashes." in whole(b"P,1,1,2,1,5\n", "one node")[0].words("small"), "one node: not said that none crashes")
    check("No node survives." in whole(b"P,2,2,3,1,6\nC,3,0\nC,3,1\n", "two crash")[0].words("small"), "two crash: not said")
    whole(b"P,1,1,2,1,0\n", "tick 0 alone")
    check(whole(b"P,4,2,3,1,8\nQ,2,0,3,1\nC,3,0\n", "a shuffled ring")[1] == 7, "a shuffled ring: not tick 7")


def by_hand(*rows):
    """A log of rows, each as a line without its list, and the list's number."""
    return "".join(f"{line},{dead:016x}\n" for line, dead in rows).encode()


def listed_by_each():
    """By hand: nodes that are alive listed by each kind of event, with crashed nodes and without; some crash later."""
    name = "live nodes listed by each kind of event"
    rows = [("C,1,6,6", 0), ("W,6,1,0", 1), ("K,6,1,1", 1), ("R,7,2,0", 1), ("R,7,2,0", 1), ("R,7,2,1", 3)]
    rows += [("K,7,2,2", 3), ("W,9,0,6", 64), ("K,9,0,1", 64), ("H,10,3,2", 3), ("H,11,4,3", 67), ("H,11,4,3", 99)]
    rows += [("R,12,3,6", 67), ("C,13,1,1", 1), ("R,14,5,1", 2), ("R,15,5,0", 3), ("R,15,5,6", 67), ("C,16,2,2", 3)]
    rows += [("R,17,0,1", 66), ("F,20,4,1", 70)]
    picture, since = whole(b"P,7,2,2,1,20\n", name, log=by_hand(*rows))
    check(since is None, f"{name}: all know")
    late = "which is alive but whose heartbeat did not come in time"
    for words in [
        f"tick 6: node 1 lists node 0, {late}, and moves on, passing 1 listed node",
        "tick 7: node 2 gets the report of node 0, which is alive, and lists it",
        "tick 7: node 2 gets the report of node 0",
        "tick 7: node 2 gets the report of node 1, its emitter, which is alive, and lists it, and moves on, passing 2"
        " listed nodes",
        "tick 9: node 0 lists node 6, whose heartbeat did not come, and moves on, passing 1 listed node",
        "tick 10: node 3 gets the heartbeat of node 2, and by its list it lists nodes 0, 1, which are alive",
        "tick 11: node 4 gets the heartbeat of node 3, and by its list it lists node 6 and nodes 0, 1, which are alive",
        "tick 11: node 4 gets the heartbeat of node 3, and by its list it lists node 5, which is alive",
        "tick 12: node 3 gets the report of node 6",
        "tick 14: node 5 gets the report of node 1",
        "tick 15: node 5 gets the report of node 0, which is alive, and lists it",
    ]:
        check(picture.titles("").count(words) == 1, f"{name}: not told {words!r}")
    said = picture.words("bad")
    wanted = "7 false listings, the first in tick 6."
    wanted += " At the end live nodes are listed: node 0 by nodes 3, 5; nodes 0, 5 by node 4. "
    wanted += "At the end nodes 0, 3-5 lack node 2."
    check(said == wanted, f"{name}: {said!r}, not {wanted!r}")
    labels = [text.text for text in picture.of("new") + picture.of("small")]
    for words in ["!0,1", "+6 !0,1", "!1 K2", "+1", "{!0, 1, 6}", "{!0, 1, !5, 6}", "{1, 6}"]:
        check(words in labels, f"{name}: no label {words!r}")


def says(run_file, name, words, rows=None):
    """Draws a run with W below H + D, or the rows of a log by hand, and looks for the words about its lists. Answers
    the tick of the mark."""
    picture, since = whole(run_file, name, log=by_hand(*rows) if rows else None)
    check("F: the time-out W is below H + D" in picture.words("small"), f"{name}: not said that W is short")
    check(words in picture.words("bad"), f"{name}: {picture.words('bad')!r}, not {words!r}")
    return since


def short_time_outs():
    """Runs with W below H + D: what they come to, with and without a false listing."""
    says(b"P,2,2,2,1,6\n", "01's edge", "No node crashes. 2 false listings, the first in tick 2. At the end live")
    says(b"P,3,2,2,1,30\n", "all are listed", "No node crashes. 6 false listings, the first in tick 2.")
    says(b"P,1,2,1,1,6\n", "one node, a short time-out", "")
    check(b"circle" not in drawn(log_of(b"P,1,2,1,1,6\n")), "one node, a short time-out: a style for no false listing")
    # The first heartbeats are quick.
    since = says(b"P,3,4,6,3,40\nC,10,2\nL,0,1\nL,1,1\nL,2,1\n", "a short time-out, all well", "")
    check(since is not None, "a short time-out, all well: no line")
    # The node listed crashes: from then on the lists are right.
    rows = [("W,2,2,1", 2), ("K,2,2,1", 2), ("R,3,0,1", 2), ("C,5,1,1", 0), ("F,8,2,0", 2)]
    words = "2 false listings, the first in tick 2. At the end no survivor lists a live node."
    check(says(b"P,3,2,2,1,8\n", "listed, then crashed", words, rows) == 5, "listed, then crashed: not tick 5")
    # The node that lists a live one crashes.
    rows = [("W,2,2,1", 2), ("K,2,2,1", 2), ("C,5,2,2", 2), ("W,7,0,2", 4), ("K,7,0,1", 4), ("R,8,1,2", 4)]
    rows.append(("F,9,2,0", 4))
    words = "1 false listing, the first in tick 2. At the end no survivor lists a live node."
    check(says(b"P,3,2,2,1,9\n", "its list goes with it", words, rows) == 8, "its list goes with it: not tick 8")
    rows = [("W,2,0,1", 2), ("K,2,0,1", 2), ("C,5,0,0", 2), ("C,5,1,1", 0), ("F,9,0,0", 3)]
    says(b"P,2,2,2,1,9\n", "all crash", "No node survives. 1 false listing, the first in tick 2. At the end no", rows)


def live_node_listed():
    """By hand: node 0 lists node 1, which lives and gets its O only then. All that crash are known, without a line."""
    rows = [("C,3,2,2", 0), ("W,6,0,2", 4), ("K,6,0,1", 4), ("R,7,1,2", 4), ("W,9,0,1", 6), ("K,9,0,1", 6)]
    rows.append(("O,10,1,0", 4))
    false, at_end = "1 false listing, the first in tick 9", "At the end live nodes are listed: node 1 by node 0."
    since = says(b"P,3,2,2,1,12\n", "a live node listed", f"{false}. {at_end}", [*rows, ("F,12,2,0", 4)])
    check(since is None, "a live node listed: all know")
    # No such log ends in E.
    none = "but in a log that ends in E no live node is listed"
    listed = "by line 5 of the log node 0 lists node 1, which is alive"
    refused(by_hand(*rows, ("E,12,2,0", 4)), f"{listed}, {none}")
    words = f"by line 1 of the log node 0 lists nodes 1-3, which are alive, {none}"
    refused(by_hand(("H,2,0,1", 14), ("E,3,4,0", 0)), words)
    drawn(by_hand(*rows[:4], ("E,12,2,0", 4)))
    # One that ends in 8,0 may; it is not that of a run file with W at least H + D.
    log = by_hand(*rows) + b"8,0\n"
    said = whole(b"P,3,2,2,1,12\n", "a live node listed, then 8", 2, log)[0].words("bad")
    check(f"{false}, so the time-out W is below H + D. {at_end}" in said, f"a live node listed, then 8: said {said!r}")
    other = "the run file is not that of the log", f"W is not below H + D, but {listed}"
    refused(log, *other, arguments=("-", place, kept(b"P,3,2,3,1,12\n")))
    os.remove(rehearsed)


def many_listed():
    """Larger rings with W below H + D, some of which end in 8,0, and rings in other orders than that of the numbers."""
    for nodes, status in [(8, 0), (20, 0), (64, 2)]:
        whole(b"P,%d,5,9,6,60\nC,20,3\nC,31,4\n" % nodes, f"{nodes} nodes, a short time-out", status)
        order = ",".join(map(str, random.Random(3).sample(range(nodes), nodes))).encode()
        run_file = b"P,%d,5,10,6,60\nQ,%s\nC,20,3\n" % (nodes, order)
        whole(run_file, f"{nodes} nodes in another order, a short time-out", status)
    quick = b"".join(b"L,%d,1\n" % number for number in range(11))
    whole(b"P,12,4,6,3,90\nC,20,3\nC,47,9\n" + quick, "12 nodes, one late heartbeat")
    check(seen["many list live nodes"], "in no ring more than six lists hold live nodes")


def many_nodes():
    crashes = b"".join(b"C,%d,%d\n" % (40 + 3 * place, node) for place, node in enumerate([3, 5, 4, 9, 10, 8, 11, 12, 13, 1, 2, 16]))
    for nodes in (20, 48, 64):
        whole(b"P,%d,5,12,6,400\n" % nodes + crashes, f"{nodes} nodes, twelve of which crash")
        whole(b"P,%d,10,30,5,300\nC,50,3\n" % nodes, f"{nodes} nodes, one of which crashes")
        evens = b"".join(b"C,%d,%d\n" % (100 + node % 3 * 9, node) for node in sorted(range(0, nodes, 2), key=lambda node: node % 3))
        whole(b"P,%d,5,12,6,150\n" % nodes + evens, f"{nodes} nodes, half of which crash soon before the end")
    whole(b"P,48,1000,1255,255,1000000\nC,999999,47\n", "a million ticks")
    picture, _ = whole(b"P,64,5,40,21,3000\nC,50,3\nC,50,4\n", "64 nodes, 3,000 ticks")
    marks = sum(1 for _ in picture.root.iter())
    check("not all are drawn" in picture.words("faint") and marks < 30000, f"64 nodes, 3,000 ticks: not thinned out, {marks} elements")
    picture, _ = whole(b"P,64,1,34,33,200\nC,30,5\n", "2,049 in flight", 2)
    check("Refused by 8" in picture.words("bad"), "2,049 in flight: the refusal is not marked")
    check(sum(element.get("class") == "refused" for element in picture.root.iter()) == 1, "2,049 in flight: no line at the refusal")


def committed(path, letters):
    """README's pictures are readable at a page's width, and have every letter. Answers the number of crashes, the tick
    of the mark, and the false listings."""
    with open(path, "rb") as file:
        run_file = file.read()
    log = log_of(run_file)
    picture, since = whole(run_file, f"the picture of {path}")
    check(picture.width <= 900, f"the picture of {path} is {picture.width} wide")
    for letter in letters:
        there = any(line.startswith(letter) for line in log.decode().splitlines())
        check(there, f"the picture of {path} has no {letter}")
    return log.count(b"C,"), since, false_listings(log)


def committed_pictures():
    crashes, since, false = committed(shown, "CHORXWSKE")
    check(crashes == 2 and since is not None and not false, "the committed picture lacks its crashes or its mark")
    crashes, since, false = committed(short, "CHORXWSKF")
    check(crashes == 1 and since is None, "the committed picture of a short time-out lacks its crash, or has a mark")
    kinds = {letter for letter, *_ in false}
    check(kinds == set("WRH"), "the committed picture of a short time-out lacks a kind of false listing")


def main():
    with open(shown, "rb") as file:
        run_file = file.read()
    log = log_of(run_file)
    refusals(log)
    incomplete(log)
    with open(short, "rb") as file:
        incomplete(log_of(file.read()))
    strange(log)
    without_its_line(log)
    forms(log)
    other_run_files()
    committed_pictures()
    known_ticks()
    listed_by_each()
    short_time_outs()
    live_node_listed()
    many_listed()
    many_nodes()
    shuffled()
    left_by_a_report()
    early_crashes()
    generated()
    outcomes = ["mark", "lack", "none crashes", "none survives", "refused", "shuffled", "left by a report"]
    outcomes += ["false W", "false R", "false H", "false H with a crashed node", "left falsely by W"]
    outcomes += ["left falsely by R", "share of live nodes"]
    outcomes += ["live nodes listed", "no live node listed at the end", "many list live nodes"]
    for outcome in outcomes + ["moves to", "moves on", "is alone", "passed 1", "passed more", "numbers"]:
        check(seen[outcome], f"no file had the outcome: {outcome}")
    print("timeline: " + ", ".join(f"{outcome} {count}" for outcome, count in sorted(seen.items())))


main()
