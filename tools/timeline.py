"""A log as a picture: the lines of a rehearsal (letter, tick, node, other, list) as a time line in SVG.

Usage: timeline.py [LOG [PICTURE [RUN-FILE]]]

LOG and PICTURE are files; without them, or with -, standard input and output. A file PICTURE is written only once it is complete.
RUN-FILE is the one that was rehearsed: where it has a Q line, the rows stand in the ring's order, which a log does not hold; else by number.
Status 0: the log is drawn. Status 2: the log ends in a refused event and is drawn up to there. Status 1: nothing is drawn. Where the
status is not 0, standard error says why. A log of before K lines, in which a W line has none, is not drawn: rehearse its run file again.

A row for each node, ticks across. A column's meaning is that of README.md's table of letters: on H, O and X `other` is the sender, on R the subject, on W the
node listed, on S the observer. The log does not name the sender of a report, so a report is drawn at its receiver, without an arrow.
A K line is the second line of an event by which a node moves to another emitter: of an expired watch, or of the report of the emitter, which has a mark of
its own. Its number, that of the listed nodes passed, stands at the mark where there is room, and in the words that a pointer on the mark shows. These name
the emitter taken where the log shows it: the node leaves that one by its next move, or that one gets its O. An O is drawn from the move that sent it.

A log ends in E, or in F where the time-out W is below H + D. Then a node may list one that is alive, which has no C
line so far: a false listing. Its mark has a circle round it and a colour of its own, and words say that the node listed
is alive. At the mark and in the lists at the end a live node has an exclamation mark, as !3; at the end one that has
crashed since has none. The share of a list that live nodes make up has a colour, too. The picture says how many false
listings there are, when the first is, and which live nodes are listed at the end. Where any is, no line says that all
know. A log that ends in E and has a false listing is not drawn, as no rehearsal writes it.
"""
import contextlib
import os
import re
import sys
import textwrap
from collections import namedtuple

# The line's number in the log and its columns; where the event moves the node to another emitter, the number of its K line, else nothing.
Event = namedtuple("Event", "line letter tick node other list passed", defaults=[None])

NUMBER = "(0|[1-9][0-9]{0,6})"
LOG_LINE = re.compile(f"([A-Z]),{NUMBER},{NUMBER},{NUMBER},([0-9a-f]{{16}})")
REFUSAL = re.compile(f"{NUMBER},{NUMBER}")
LETTERS = "CHORXWSKEF"
LAST_LETTERS = "EF"
START_LINE = re.compile("P" + 5 * f",{NUMBER}")
RING_LINE = re.compile(f"Q(?:,{NUMBER})+")

# The numbers of refusals in words. The rehearsal program answers with any of these but 4 and 7.
REFUSALS = {
    1: "the run file has no bytes, or more than 65,536",
    2: "the form of the line: its letter, the number of its fields, a digit, its line feed, or the order of the letters P, Q, C, L. Usual"
    " causes are a carriage return before the line feed, no line feed after the last line, a blank line, a space, a leading zero, and a"
    " byte order mark before the first line",
    3: "a number of the line is outside its range, or a node is not below N",
    4: "the time-out W is below H + D, the heartbeat period and the longest delay together. Only earlier rehearsal"
    " programs refuse that: rehearse the run file again",
    5: "the C lines do not rise by tick, then node, or the L lines by number; or a node crashes twice",
    6: "there are more than 2,048 L lines",
    7: "the store has another length, a field out of range, or an unused byte that is not zero",
    8: "more than 2,048 messages would be in flight",
    13: "the Q line does not name each node once",
}

LEFT, TOP = 76, 62
WIDEST, NARROWEST = 1500, 690
TICK_WIDTH, MOST_TICK_WIDTH = 16, 90
LETTER_WIDTH = 6.8
MOST_MARKS = 8000
MOST_LABELS = 160
MOST_LISTED = 6
MOST_GROUPS = 6
LEGEND_ROW = 24
LISTS = "list at the end"

STYLE = """
text { font-family: Helvetica, Arial, sans-serif; font-size: 13px; fill: #222222 }
.small { font-size: 12px }
.faint { fill: #666666 }
.tick, .new { font-size: 12px; paint-order: stroke; stroke: #ffffff; stroke-width: 3px }
.new { fill: #a85a0c }
.grid { stroke: #e6e6e6; stroke-width: 1 }
.life { stroke: #555555; stroke-width: 1.3 }
.dead { stroke: #cccccc; stroke-width: 1.3 }
.gone { fill: #f1f1f1 }
.sent { stroke: #2f7fd0; stroke-width: 1.5 }
.heard { stroke: #2f9e63; stroke-width: 1.5 }
.dropped { stroke: #999999; stroke-width: 1.3 }
.listed { fill: #f6c89a }
.report { fill: #d9822b; stroke: #d9822b; stroke-width: 1.2 }
.known { fill: #ffffff; stroke: #d9822b; stroke-width: 1.2 }
.observer { stroke: #6a4fb3; stroke-width: 1.5; fill: none }
.head { fill: #6a4fb3 }
.watch { fill: #c0392b }
.crash { stroke: #000000; stroke-width: 2.4 }
.end { stroke: #333333; stroke-width: 1.3 }
.all { stroke: #1b7a47; stroke-width: 2; stroke-dasharray: 6 4 }
.good { font-size: 13px; font-weight: bold; fill: #1b7a47 }
.bad { font-size: 12px; fill: #b0281a }
.refused { stroke: #b0281a; stroke-width: 2.4 }
"""
# Where there is a false listing.
FALSE_STYLE = """.circle { fill: #ffffff; fill-opacity: 0.55; stroke: #9c1694; stroke-width: 2 }
.watch-false { fill: #9c1694 }
.report-false { fill: #9c1694; stroke: #9c1694; stroke-width: 1.2 }
.share { fill: #c06bba }
.alive { fill: #9c1694 }
"""


def fail(why):
    sys.exit(f"timeline: {why}")


# ---- reading


def in_words(number, line):
    place = f" at line {line} of the run file" if line else ""
    return f"refused by {number}{place}: {REFUSALS.get(number, 'a number that this script has no words for')}"


def read_event(number, line):
    fields = LOG_LINE.fullmatch(line)
    if not fields:
        hint = "; it looks like one of a run file, whose log the rehearsal program writes" if number == 1 and line[:2] == "P," else ""
        fail(f"line {number} is no log line: {line!r}{hint}")
    letter, tick, node, other = fields[1], int(fields[2]), int(fields[3]), int(fields[4])
    if letter not in LETTERS:
        fail(f"line {number} has the letter {letter}, which is not among those that this script knows, {' '.join(LETTERS)}")
    most_node, most_other = (64, 2048) if letter in LAST_LETTERS else (63, 63)
    if tick > 1_000_000 or node > most_node or other > most_other:
        fail(f"line {number} has a number outside its range: {line!r}")
    return Event(number, letter, tick, node, other, int(fields[5], 16))


def moved(event, line):
    """An event with its K line. The node left, which is listed by then, counts among those passed."""
    if event.letter not in "WR" or event.passed or (line.tick, line.node, line.list) != (event.tick, event.node, event.list):
        fail(f"line {line.line} is a K line, but the line before it is no W or R line of the same tick, node and list")
    if not 1 <= line.other <= len(members(line.list)):
        fail(f"line {line.line} has a number outside its range: {line.other} nodes passed, {len(members(line.list))} listed")
    return event._replace(passed=line.other)


def read_lines(text):
    """The lines of a log, unless it is cut off or is the refusal of a run file."""
    if text == "":
        fail("the log is empty: it ends before its last line")
    lines = text.split("\n")
    if lines.pop() != "":
        fail(f"the log ends before its last line: line {len(lines) + 1} has no line feed")
    refusal = REFUSAL.fullmatch(lines[0])
    if len(lines) == 1 and refusal:
        fail("nothing is drawn, as the rehearsal was " + in_words(*map(int, refusal.groups())))
    return lines


def read_log(text):
    """The events, and the last line: E or F, or nothing where the log ends in a refused event."""
    lines, events = read_lines(text), []
    refused = lines[-1] == "8,0"
    for line in [read_event(number, line) for number, line in enumerate(lines[: len(lines) - refused], 1)]:
        before = events[-1] if events else line
        if line.letter in LAST_LETTERS and line.line < len(lines):
            fail(f"line {line.line} is the last of a log, but line {line.line + 1} follows it")
        if line.tick < before.tick:
            fail(f"line {line.line} has an earlier tick than the line before it")
        if line.letter == "K":
            events[-1:] = [moved(before, line)]
        else:
            events.append(line)
    if not refused and events[-1].letter not in LAST_LETTERS:
        fail(f"the log ends before its last line: after line {len(lines)} there is neither E, F nor 8,0")
    for event in events:
        if event.letter == "W" and not event.passed:
            fail(f"line {event.line}, a W line, has no K line after it: the log is from before K lines, or one is missing")
    if refused:
        return events, None
    if members(events[-1].list) != sorted(event.node for event in events if event.letter == "C"):
        fail("the last line's crashed nodes are not those of the C lines: the log's beginning may be missing")
    listing = events[-1].letter == "E" and first_false(events[:-1])
    if listing:
        fail(f"{listing}, but in a log that ends in E no live node is listed")
    return events[:-1], events[-1]


def first_false(events):
    """In words, the first event by which a live node is listed, or nothing."""
    for event, _, alive in grown(events):
        if alive:
            return f"by line {event.line} of the log node {event.node} lists {alive_in_words(alive)}"
    return None


def not_its_run_file(why):
    fail(f"nothing is drawn, as the run file is not that of the log: {why}")


def check_time_out(start, events, last):
    """A log with a false listing or an F is that of a file with W below H + D, one with an E is that of another."""
    _, period, time_out, delay, _ = map(int, start.groups())
    if time_out < period + delay:
        if last and last.letter == "E":
            not_its_run_file("by its P line W is below H + D, but the log ends in E")
        return
    if last and last.letter == "F":
        not_its_run_file("by its P line W is not below H + D, but the log ends in F")
    listing = first_false(events)
    if listing:
        not_its_run_file(f"by its P line W is not below H + D, but {listing}")


def read_ring(text, nodes, events, last):
    """The nodes in the ring's order, by the first two lines of a run file."""
    first, second, *_ = [*text.split("\n"), ""]
    start = START_LINE.fullmatch(first)
    if not start:
        not_its_run_file(f"it has no P line, but begins with {first[:40]!r}")
    if int(start[1]) != nodes:
        not_its_run_file(f"it has N = {start[1]}, but the nodes of the log are {nodes}")
    check_time_out(start, events, last)
    in_number_order = list(range(nodes))
    if second[:1] != "Q":
        return in_number_order
    ring = [int(number) for number in second.split(",")[1:]] if RING_LINE.fullmatch(second) else []
    if sorted(ring) != in_number_order:
        not_its_run_file(REFUSALS[13])
    return ring


def neighbours(events):
    """The neighbours that a log shows, as line, node and the next one of the ring. Up to the first tick in which watches expire each node sends to the next
    one, and those watches are on the one before."""
    until = next((event.tick for event in events if event.letter == "W"), None)
    for event in events:
        if until is not None and event.tick > until:
            return
        if event.letter == "S":
            yield event.line, event.node, event.other
        elif event.letter == "W":
            yield event.line, event.other, event.node


def check_ring(ring, events):
    following = dict(zip(ring, ring[1:] + ring[:1]))
    for number, sender, observer in neighbours(events):
        if following[sender] != observer:
            not_its_run_file(f"by line {number} of the log node {observer} follows node {sender} in the ring, by the run file node {following[sender]}")


# ---- lists


def members(dead):
    return [node for node in range(64) if dead >> node & 1]


def spelled(nodes):
    """Node numbers in words: 'node 3' or 'nodes 1, 4-7'."""
    runs = []
    for node in nodes:
        if runs and node == runs[-1][1] + 1:
            runs[-1][1] = node
        else:
            runs.append([node, node])
    parts = [str(a) if a == b else f"{a}, {b}" if b == a + 1 else f"{a}-{b}" for a, b in runs]
    return ("node " if len(nodes) == 1 else "nodes ") + ", ".join(parts)


def alive_in_words(nodes):
    return f"{spelled(nodes)}, which {'is' if len(nodes) == 1 else 'are'} alive"


def grown(events):
    """The events after which a node's list has more in it, with what is new: nodes crashed by then, and live ones."""
    lists, crashed = {}, 0
    for event in events:
        crashed |= (event.letter == "C") << event.node
        new = event.list & ~lists.get(event.node, 0)
        lists[event.node] = event.list
        if new:
            yield event, members(new & crashed), members(new & ~crashed)


def shares(events):
    """For each node, while it lives, when its list changes or a node in it crashes: the tick, and how many crashed
    nodes and how many live ones the list holds."""
    lists, crashed, steps = {}, 0, {}
    for event in events:
        if event.letter != "C" and event.list == lists.get(event.node, 0):
            continue
        crashed |= (event.letter == "C") << event.node
        lists[event.node] = event.list
        for node in lists if event.letter == "C" else [event.node]:
            counts = len(members(lists[node] & crashed)), len(members(lists[node] & ~crashed))
            before = steps.get(node, [(0, 0, 0)])[-1][1:]
            if counts != before and not crashed >> node & 1:
                steps.setdefault(node, []).append((event.tick, *counts))
    return steps


def last_lists(nodes, events):
    """Each node's list at the end."""
    held = {event.node: event.list for event in events}
    return [held.get(node, 0) for node in range(nodes)]


def knowledge(nodes, events):
    """The tick from which, until the end, all survivors list all crashed nodes and no live one, or nothing; and for
    each survivor what it lacks at the end, and which live nodes it lists then."""
    lists, crashed, since, lacking, wrong = [0] * nodes, 0, 0, {}, {}
    for event in events:
        if event.letter != "C" and event.list == lists[event.node]:
            continue
        lists[event.node] = event.list
        crashed |= (event.letter == "C") << event.node
        survivors = [node for node in range(nodes) if not crashed >> node & 1]
        lacking = {node: crashed & ~lists[node] for node in survivors if crashed & ~lists[node]}
        wrong = {node: lists[node] & ~crashed for node in survivors if lists[node] & ~crashed}
        if lacking or wrong:
            since = None
        elif since is None:
            since = event.tick
    return since, lacking, wrong


# ---- moves


def moves(events):
    """By node and emitter, the move by which the node takes that emitter, as far as the log shows it: the node's last one before it leaves the emitter or
    the emitter gets its O, whichever comes first. Nothing where there is none before, as the emitter was there from the start."""
    last, taking = {}, {}
    for event in events:
        if event.passed:
            taking.setdefault((event.node, event.other), last.get(event.node))
            last[event.node] = event
        elif event.letter == "O" and not taking.setdefault((event.other, event.node), last.get(event.other)):
            fail(f"line {event.line}: node {event.other} sends an O, but no K line says that it has moved")
    return taking


class Picture:
    """Where things stand, and the elements drawn so far."""

    def __init__(self, events, last, run_file):
        self.events, self.last = events, last
        named = max((max(event.node, event.other) + 1 for event in events), default=1)
        self.nodes = last.node + len(members(last.list)) if last else named
        if named > self.nodes or self.nodes > 64:
            fail(f"the log names node {named - 1}, but its last line counts {self.nodes} nodes")
        self.ring = list(range(self.nodes))
        if run_file is not None:
            self.ring = read_ring(run_file, self.nodes, events, last)
            check_ring(self.ring, events)
        self.rows = {node: row for row, node in enumerate(self.ring)}
        self.end = last.tick if last else events[-1].tick
        width = min(WIDEST, max(NARROWEST, (self.end + 1) * TICK_WIDTH))
        self.scale = min(MOST_TICK_WIDTH, width / (self.end + 1))
        self.row = 44 if self.nodes <= 12 else 28 if self.nodes <= 32 else 22
        self.crashes = {event.node: event.tick for event in events if event.letter == "C"}
        self.moves = moves(events)
        self.news = {event: (dead, alive) for event, dead, alive in grown(events)}
        self.false = {event: alive for event, (_, alive) in self.news.items() if alive}
        self.last_words = [self.at_end(node, members(dead)) for node, dead in enumerate(last_lists(self.nodes, events))]
        longest = max(len(words) for words in [LISTS, *(words for words, _ in self.last_words)])
        self.after_end = self.x(self.end) + (16 if self.false else 10)
        self.right = round(max(self.after_end + LETTER_WIDTH * longest, LEFT + NARROWEST))
        self.elements = []

    def at_end(self, node, held):
        """What a row comes to, in words, and the class of these."""
        if node in self.crashes:
            return f"crashed at {self.crashes[node]}", "small faint"
        alive = [other for other in held if other not in self.crashes]
        kind = "small alive" if alive else "small"
        if len(held) > MOST_LISTED:
            return f"{len(held)} nodes" + f", {len(alive)} alive" * bool(alive), kind
        return "{" + ", ".join("!" * (other in alive) + str(other) for other in held) + "}", kind

    def x(self, tick):
        return round(LEFT + tick * self.scale, 1)

    def y(self, node):
        return TOP + self.rows[node] * self.row + self.row // 2

    def bottom(self):
        return TOP + self.nodes * self.row

    def line(self, kind, x1, y1, x2, y2):
        self.elements.append(f'<line class="{kind}" x1="{x1:g}" y1="{y1:g}" x2="{x2:g}" y2="{y2:g}"/>')

    def rect(self, kind, x, y, width, height):
        self.elements.append(f'<rect class="{kind}" x="{x:g}" y="{y:g}" width="{width:g}" height="{height:g}"/>')

    def shape(self, kind, points, told=None):
        path = "M" + " L".join(f"{x:g} {y:g}" for x, y in points) + " Z"
        title = f"<title>{told}</title>" if told else ""
        self.elements.append(f'<path class="{kind}" d="{path}">{title}</path>')

    def circle(self, x, y, told=None):
        title = f"<title>{told}</title>" if told else ""
        self.elements.append(f'<circle class="circle" cx="{x:g}" cy="{y:g}" r="9">{title}</circle>')

    def text(self, x, y, words, kind, anchor="start"):
        self.elements.append(f'<text class="{kind}" x="{x:g}" y="{y:g}" text-anchor="{anchor}">{words}</text>')

    def paragraph(self, y, words, kind):
        """Words in lines as wide as the legend. Answers where the next line stands."""
        for line in textwrap.wrap(words, int((self.right - LEFT) / LETTER_WIDTH), break_on_hyphens=False):
            self.text(LEFT, y, line, kind)
            y += 18
        return y

    # ---- marks, used by the rows and by the legend

    def cross(self, kind, x, y, size):
        self.line(kind, x - size, y - size, x + size, y + size)
        self.line(kind, x - size, y + size, x + size, y - size)

    def diamond(self, kind, x, y, told=None):
        self.shape(kind, [(x, y - 4.5), (x + 4.5, y), (x, y + 4.5), (x - 4.5, y)], told)

    def expired(self, x, y, told=None, kind="watch"):
        self.shape(kind, [(x - 6, y - 7), (x + 6, y - 7), (x, y + 4)], told)

    def reported(self, x, y, told=None, kind="report"):
        self.shape(kind, [(x - 6, y + 4), (x + 6, y + 4), (x, y - 7)], told)

    def arrow(self, x1, y1, x2, y2):
        length = max(((x2 - x1) ** 2 + (y2 - y1) ** 2) ** 0.5, 1)
        dx, dy = (x2 - x1) / length, (y2 - y1) / length
        back_x, back_y = x2 - 8 * dx, y2 - 8 * dy
        self.line("observer", x1, y1, round(back_x, 1), round(back_y, 1))
        wings = [(x2, y2), (back_x - 3.5 * dy, back_y + 3.5 * dx), (back_x + 3.5 * dy, back_y - 3.5 * dx)]
        self.shape("head", [(round(x, 1), round(y, 1)) for x, y in wings])


# ---- drawing, from the ground up


def tick_step(picture):
    """A round number of ticks whose labels stand apart in the picture."""
    step, room = 1, 20 + 8 * len(str(picture.end))
    while step * picture.scale < room:
        step = step * 5 // 2 if str(step)[0] == "2" else step * 2
    return step


def draw_grid(picture):
    for tick in range(0, picture.end + 1, tick_step(picture)):
        picture.line("grid", picture.x(tick), TOP - 6, picture.x(tick), picture.bottom())


def draw_ticks(picture):
    for tick in range(0, picture.end + 1, tick_step(picture)):
        picture.text(picture.x(tick), TOP - 12, tick, "tick faint", "middle")
    picture.text(LEFT - 14, TOP - 12, "tick", "small faint", "end")


def draw_rows(picture):
    for node in picture.ring:
        y, end = picture.y(node), picture.x(picture.end)
        crash = picture.x(picture.crashes.get(node, picture.end))
        if node in picture.crashes:
            picture.rect("gone", crash, y - picture.row / 2, round(end - crash, 1), picture.row)
            picture.line("dead", crash, y, end, y)
        picture.line("life", picture.x(0), y, crash, y)
        picture.text(LEFT - 14, y + 4, f"node {node}", "node faint" if node in picture.crashes else "node", "end")


def draw_lists(picture):
    """A step under the row for each list, as high as the share of the nodes that it holds. The lower part of it is that
    of live nodes."""
    for node, changes in shares(picture.events).items():
        until = picture.crashes.get(node, picture.end)
        ends = [tick for tick, *_ in changes[1:]] + [until]
        for (tick, dead, alive), end in zip(changes, ends):
            height = round(max(2, (picture.row / 2 - 2) * (dead + alive) / picture.nodes), 1)
            if end > tick and dead + alive:
                x, y, width = picture.x(tick), picture.y(node) + 1, round(picture.x(end) - picture.x(tick), 1)
                picture.rect("listed", x, y, width, height)
                if alive:
                    part = round(height * alive / (dead + alive), 1)
                    picture.rect("share", x, round(y + height - part, 1), width, part)


def thinned(picture, events):
    """All events where they are few, else one of a node and letter in each stretch of the picture. And whether any is left out."""
    if len(events) <= MOST_MARKS:
        return events, False
    stretch = 2 * picture.nodes * (picture.x(picture.end) - LEFT) / MOST_MARKS
    places = {}
    for event in events:
        places.setdefault((event.node, event.letter, int(picture.x(event.tick) / stretch)), event)
    return list(places.values()), len(places) < len(events)


def draw_heartbeats(picture):
    kept, thin = thinned(picture, [event for event in picture.events if event.letter in "SHX"])
    size = 8 if picture.row > 40 else 5
    for event in kept:
        x, y = picture.x(event.tick), picture.y(event.node)
        if event.letter == "S":
            picture.line("sent", x, y - size, x, y)
        elif event.letter == "H":
            picture.line("heard", x, y, x, y + size)
        else:
            picture.cross("dropped", x, y, 2.5)
    return thin


def draw_observers(picture):
    """An arrow for each O, from the move that sent it."""
    for event in picture.events:
        if event.letter == "O":
            sent = picture.moves[event.other, event.node]
            picture.arrow(picture.x(sent.tick), picture.y(event.other), picture.x(event.tick), picture.y(event.node))


def draw_circles(picture):
    """A circle for each false listing, round the mark of its event. That of a heartbeat has words of its own."""
    for event in picture.false:
        told = None if event.letter in "WR" else heartbeat_in_words(event, *picture.news[event])
        picture.circle(picture.x(event.tick), picture.y(event.node) - 1.5 * bool(event.passed), told)


def heartbeat_in_words(event, dead, alive):
    listed = " and ".join([spelled(dead)] * bool(dead) + [alive_in_words(alive)])
    gets = f"node {event.node} gets the heartbeat of node {event.other}"
    return f"tick {event.tick}: {gets}, and by its list it lists {listed}"


def report_in_words(picture, event):
    its_emitter = ", its emitter" * bool(event.passed)
    lists_it = ", which is alive, and lists it" * (event in picture.false)
    return f"tick {event.tick}: node {event.node} gets the report of node {event.other}{its_emitter}{lists_it}"


def draw_reports(picture):
    """Those by which no emitter is left."""
    reports = [event for event in picture.events if event.letter == "R" and not event.passed]
    kept, thin = thinned(picture, [event for event in reports if event not in picture.news])
    for event in kept + [event for event in reports if event in picture.news]:
        kind = "report-false" if event in picture.false else "report" if event in picture.news else "known"
        picture.diamond(kind, picture.x(event.tick), picture.y(event.node), report_in_words(picture, event))
    return thin


def watch_in_words(event, false):
    late = "which is alive but whose heartbeat did not come in time" if false else "whose heartbeat did not come"
    return f"tick {event.tick}: node {event.node} lists node {event.other}, {late}"


def draw_moves_and_crashes(picture):
    """Answers whether an emitter is left by a report."""
    taken, by_report = {move: f"moves to node {emitter}" for (_, emitter), move in picture.moves.items()}, False
    for event in picture.events:
        x, y = picture.x(event.tick), picture.y(event.node)
        if event.letter == "C":
            picture.cross("crash", x, y, 6)
        elif event.passed:
            alone = len(members(event.list)) == picture.nodes - 1
            where = "is alone" if alone else taken.get(event, "moves on")
            told = f"{where}, passing {event.passed} listed node{'s' * (event.passed > 1)}"
            false = "-false" * (event in picture.false)
            if event.letter == "W":
                picture.expired(x, y, f"{watch_in_words(event, false)}, and {told}", "watch" + false)
            else:
                by_report = True
                picture.reported(x, y, f"{report_in_words(picture, event)}, and {told}", "report" + false)
    return by_report


def label(event, dead, alive, few):
    """The words of a label: crashed nodes and live ones that are new, where changes are few, and a move's number."""
    names = [(sign, ",".join(map(str, nodes))) for sign, nodes in [("+", dead), ("!", alive)] if few and nodes]
    return [sign + nodes for sign, nodes in names] + [f"K{event.passed}"] * bool(event.passed)


def draw_labels(picture):
    """Right of a mark, at the end left of it: what is new in a list, and at a move the number of its K line. Moves come first where there is not room for
    all. Answers the legend's words about the labels, by their first letters, and whether a live node is in one."""
    held, drawn, few = {}, [], len(picture.news) <= MOST_LABELS
    labels = [(event, label(event, *new, few)) for event, new in picture.news.items() if few or event.passed]
    for event, words in sorted(labels, key=lambda one: not one[0].passed):
        x, room = picture.x(event.tick), 8 + 8 * len(" ".join(words))
        left = x + 8 if x + room <= picture.x(picture.end) else x - room
        beside = held.setdefault(event.node, [])
        if left >= LEFT and all(left >= until or left + room <= since for since, until in beside):
            kind = "new alive" if few and event in picture.false else "new"
            picture.text(left, picture.y(event.node) - 7, " ".join(words), kind)
            beside.append((left, left + room))
            drawn.append(words)
    signs, room = {word[0] for words in drawn for word in words}, ", where there is room" * (len(drawn) < len(labels))
    told = {"+": "; +3: node 3 is new in the list", "K": "K, move: 2 listed nodes passed, the emitter left included"}
    return {sign: (words + room) * (sign in signs) for sign, words in told.items()}, "!" in signs


def draw_end(picture):
    """What each row comes to, and the last line's words under the rows. Answers whether a live node is named."""
    x, last, y = picture.x(picture.end), picture.last, picture.bottom() + 22
    picture.text(picture.after_end, TOP - 38, LISTS, "small faint")
    for node, (words, kind) in enumerate(picture.last_words):
        picture.text(picture.after_end, picture.y(node) + 4, words, kind)
    if last:
        picture.line("end", x, TOP - 6, x, picture.bottom() + 6)
        words = f"end of tick {last.tick}: {last.node} survivor{'' if last.node == 1 else 's'}, {last.other} in flight"
        words += "; F: the time-out W is below H + D" * (last.letter == "F")
        picture.text(LEFT, y, words, "small")
    else:
        picture.line("refused", x, TOP - 6, x, picture.bottom() + 6)
        picture.paragraph(y, f"Refused by 8 in tick {picture.end} or later: {REFUSALS[8]}.", "bad")
    return any("!" in words for words, _ in picture.last_words)


def draw_knowledge(picture, since):
    """The tick from which all survivors list all crashed nodes and no live one, as a line with a label. Answers whether
    there is one."""
    if since is None or not 0 < len(picture.crashes) < picture.nodes:
        return False
    words, x = f"all know from tick {since}", picture.x(since)
    half = LETTER_WIDTH * len(words) / 2 + 8
    picture.line("all", x, TOP - 32, x, picture.bottom() + 6)
    picture.text(max(LEFT + half, min(x, picture.x(picture.end) - half)), TOP - 38, words, "good", "middle")
    return True


def grouped(lists):
    """The lists of nodes, each as its members and the nodes that have it."""
    who = {}
    for node, held in lists.items():
        who.setdefault(held, []).append(node)
    return [(members(held), nodes) for held, nodes in who.items()]


def lacks_in_words(lacking):
    groups = grouped(lacking)
    said = [f"{spelled(who)} {'lacks' if len(who) == 1 else 'lack'} {spelled(lacks)}" for lacks, who in groups]
    return "At the end " + "; ".join(said) + "."


def false_in_words(picture, wrong):
    """How many false listings there are, when the first is, and which live nodes are listed at the end, by whom."""
    count, first = len(picture.false), next(iter(picture.false)).tick
    words = f"{count} false listing{'s' * (count > 1)}, the first in tick {first}"
    words += "." if picture.last else ", so the time-out W is below H + D."
    if not wrong:
        return words + " At the end no survivor lists a live node."
    groups = grouped(wrong)
    if len(groups) > MOST_GROUPS:
        return f"{words} At the end {len(wrong)} of {picture.nodes - len(picture.crashes)} survivors list live nodes."
    said = [f"{spelled(alive)} by {spelled(nodes)}" for alive, nodes in groups]
    return f"{words} At the end live nodes are listed: {'; '.join(said)}."


def ending_in_words(picture, lacking, wrong):
    """What the lists come to, and the class of these words."""
    words = []
    if len(picture.crashes) in (0, picture.nodes):
        words.append("No node survives." if picture.crashes else "No node crashes.")
    if picture.false:
        words.append(false_in_words(picture, wrong))
    if lacking:
        words.append(lacks_in_words(lacking))
    return " ".join(words), "bad" if picture.false or lacking else "small"


def draw_legend(picture, ending, known, by_report, labels, named, thin):
    """What the lists come to, the marks with their meaning, and a note. Answers where the picture ends."""
    y = picture.paragraph(picture.bottom() + 46, *ending) + (4 if ending[0] else 0)
    entries = [
        (lambda x, y: picture.cross("crash", x, y, 6), "C, crash"),
        (lambda x, y: picture.line("sent", x, y - 6, x, y + 4), "S, heartbeat sent"),
        (lambda x, y: picture.line("heard", x, y - 4, x, y + 6), "H, heartbeat received"),
        (lambda x, y: picture.cross("dropped", x, y, 2.5), "X, dropped at a crashed node"),
        (lambda x, y: picture.expired(x, y + 1), "W, watch expired: the emitter is listed"),
        (lambda x, y: picture.arrow(x - 10, y, x + 8, y), "O, from the new observer to its emitter"),
        (lambda x, y: picture.diamond("report", x, y), "R, report that adds its subject"),
        (lambda x, y: picture.diamond("known", x, y), "R of a node listed before"),
        (lambda x, y: picture.rect("listed", x - 8, y - 4, 16, 8), "share of the nodes listed" + labels["+"]),
    ]
    if by_report:
        entries.insert(-1, (lambda x, y: picture.reported(x, y + 1), "R of the emitter, which is left at once"))
    if labels["K"]:
        entries.insert(-1, (lambda x, y: picture.text(x, y + 4, "K2", "new", "middle"), labels["K"]))
    if picture.false:
        words = "round a W, R or H: false listing, of a node that is alive" + "; !3: node 3 is alive" * named
        entries.append((lambda x, y: picture.rect("share", x - 8, y - 4, 16, 8), "share of live nodes listed"))
        entries.append((lambda x, y: picture.circle(x, y), words))
    if known:
        words = "from here all survivors list all crashed nodes" + " and no live one" * bool(picture.false)
        entries.append((lambda x, y: picture.line("all", x - 9, y, x + 9, y), words))
    x = LEFT
    for mark, words in entries:
        width = 38 + LETTER_WIDTH * len(words)
        if x > LEFT and x + width > picture.right:
            x, y = LEFT, y + LEGEND_ROW
        mark(round(x + 9, 1), y - 4)
        picture.text(round(x + 24, 1), y, words, "small")
        x += width
    note = "A log line names the subject of a report, not its sender, so a report stands at its receiver without an arrow."
    if picture.ring != sorted(picture.ring):
        note = "The rows stand in the ring's order. " + note
    if thin:
        note += " Of heartbeats, drops and reports that change nothing, not all are drawn."
    return picture.paragraph(y + LEGEND_ROW, note, "small faint")


def draw(events, last, run_file):
    picture = Picture(events, last, run_file)
    draw_grid(picture)
    draw_rows(picture)
    draw_lists(picture)
    draw_circles(picture)
    thin = draw_heartbeats(picture)
    since, lacking, wrong = knowledge(picture.nodes, events)
    known = draw_knowledge(picture, since)
    draw_ticks(picture)
    draw_observers(picture)
    thin = draw_reports(picture) or thin
    by_report = draw_moves_and_crashes(picture)
    labels, named = draw_labels(picture)
    named = draw_end(picture) or named
    ending = ending_in_words(picture, lacking, wrong)
    width, height = picture.right + 8, draw_legend(picture, ending, known, by_report, labels, named, thin)
    head = f'<svg xmlns="http://www.w3.org/2000/svg" width="{width:g}" height="{height:g}" viewBox="0 0 {width:g} {height:g}">'
    ground = f'<rect fill="#ffffff" x="0" y="0" width="{width:g}" height="{height:g}"/>'
    style = STYLE + FALSE_STYLE * bool(picture.false)
    return "\n".join([head, f"<style>{style}</style>", ground, *picture.elements, "</svg>"]) + "\n"


# ---- files


def read_text(path):
    if path == "-":
        return sys.stdin.buffer.read().decode("ascii", "replace")
    try:
        with open(path, encoding="ascii", errors="replace", newline="") as file:
            return file.read()
    except OSError as error:
        fail(f"{path}: {error.strerror}")


def write_picture(path, picture):
    """Writes it beside its place, then renames it, so that a picture is there whole or not at all."""
    if path == "-":
        sys.stdout.write(picture)
        return
    place = os.path.realpath(path)
    if os.path.exists(place) and not os.path.isfile(place):
        fail(f"{path} is no file")
    part = f"{place}.{os.getpid()}.part"
    try:
        with open(part, "x", encoding="ascii") as file:
            file.write(picture)
        os.replace(part, place)
    finally:
        with contextlib.suppress(FileNotFoundError):
            os.remove(part)


def main(arguments):
    if arguments in (["-h"], ["--help"]):
        print(__doc__)
        return
    if len(arguments) > 3:
        fail("usage: timeline.py [LOG [PICTURE [RUN-FILE]]]")
    log, picture, run_file = arguments + ["-", "-", None][len(arguments) :]
    events, last = read_log(read_text(log))
    drawn = draw(events, last, None if run_file is None else read_text(run_file))
    try:
        write_picture(picture, drawn)
    except OSError as error:
        fail(f"{picture}: {error.strerror}")
    if last is None:
        print("timeline: drawn up to an event that was " + in_words(8, 0), file=sys.stderr)
        sys.exit(2)


if __name__ == "__main__":
    main(sys.argv[1:])
