#!/usr/bin/env python3
"""Draws the pictures of docs/READING.md into docs/pictures/, as SVG.

    python3 docs/pictures.py

Plain Python 3. The graph of crates is read from crates.txt; the other pictures stand below as text. The same
input gives the same files. The script ends with a fault where a text is under 12 px, leaves the page or its
box, or meets another text, and where a line runs through a text or a box.
"""
import os
import random
import sys

HERE = os.path.dirname(os.path.abspath(__file__))
OUT = os.path.join(HERE, "pictures")
CRATES = os.path.join(HERE, "..", "crates.txt")


# ---- a page

def width_of(text, size, mono):
    """A bound of a text's width: the widths of a wide common font."""
    if mono:
        return 0.605 * size * len(text)
    total = 0.0
    for c in text:
        if c in "ijlI.,:;'|! ":
            total += 0.34
        elif c in "frt()[]-":
            total += 0.42
        elif c in "mwMW":
            total += 0.97
        elif c.isupper():
            total += 0.72
        else:
            total += 0.63
    return total * size


def escaped(text):
    return text.replace("&", "&amp;").replace("<", "&lt;").replace(">", "&gt;")


def meets(a, b):
    """Whether two rectangles (left, top, right, bottom) have a point in common."""
    return a[0] < b[2] and b[0] < a[2] and a[1] < b[3] and b[1] < a[3]


def crosses(p, q, r):
    """Whether the line from p to q runs through the rectangle r."""
    low, high = 0.0, 1.0
    for axis in (0, 1):
        d = q[axis] - p[axis]
        near, far = r[axis], r[axis + 2]
        if abs(d) < 1e-9:
            if p[axis] <= near or p[axis] >= far:
                return False
            continue
        first, last = (near - p[axis]) / d, (far - p[axis]) / d
        if first > last:
            first, last = last, first
        low, high = max(low, first), min(high, last)
        if low >= high:
            return False
    return True


class Page:
    def __init__(self, name, width, height, title):
        self.name, self.width, self.height = name, width, height
        self.title = title
        self.shapes, self.texts, self.boxes, self.lines = [], [], [], []
        self.words(20, 32, title, size=17, bold=True)

    def fail(self, what):
        sys.exit("%s: %s" % (self.name, what))

    def words(self, x, y, text, size=13, anchor="start", mono=False, bold=False, italic=False):
        """One line of text; y is its base line."""
        if size < 12:
            self.fail("small text: " + text)
        width = width_of(text, size, mono) * (1.08 if bold else 1.0)
        left = x - {"start": 0.0, "middle": width / 2, "end": width}[anchor]
        here = (left, y - 0.8 * size, left + width, y + 0.24 * size)
        if here[0] < 4 or here[2] > self.width - 4 or here[1] < 2 or here[3] > self.height - 2:
            self.fail("off the page: " + text)
        self.texts.append((here, text))
        self.shapes.append(
            '<text x="%g" y="%g" font-size="%g" font-family="%s"%s%s%s>%s</text>'
            % (x, y, size, "DejaVu Sans Mono, Menlo, Courier New, monospace" if mono else "DejaVu Sans, Helvetica, Arial, sans-serif",
               ' text-anchor="%s"' % anchor if anchor != "start" else "",
               ' font-weight="bold"' if bold else "", ' font-style="italic"' if italic else "", escaped(text)))
        return here

    def box(self, x, y, w, h, lines=(), fill="white", dashed=False, thick=False, size=13, top=False, room=False):
        """A box with lines of text in it, each a string or (string, style ..); `room` is a box around others."""
        here = (x, y, x + w, y + h)
        for other, _, _ in self.boxes:
            inside = here[0] >= other[0] and here[1] >= other[1] and here[2] <= other[2] and here[3] <= other[3]
            if meets(here, other) and not inside:
                self.fail("boxes meet: %r" % (lines,))
        self.boxes.append((here, lines, room))
        self.shapes.append(
            '<rect x="%g" y="%g" width="%g" height="%g" fill="%s" stroke="black" stroke-width="%g"%s/>'
            % (x, y, w, h, fill, 2 if thick else 1.2, ' stroke-dasharray="6 4"' if dashed else ""))
        step = size + 5
        first = y + step if top else y + h / 2 - step * (len(lines) - 1) / 2 + 0.36 * size
        for k, line in enumerate(lines):
            style = {}
            if not isinstance(line, str):
                line, style = line
            at = self.words(x + w / 2, first + k * step, line, size=size, anchor="middle", **style)
            if at[0] < x + 1 or at[2] > x + w - 1 or at[1] < y or at[3] > y + h:
                self.fail("out of its box: " + line)

    def line(self, points, dashed=False, arrow=False, both=False, thick=False):
        self.lines += list(zip(points, points[1:]))
        path = " ".join("%g,%g" % p for p in points)
        self.shapes.append(
            '<polyline points="%s" fill="none" stroke="black" stroke-width="%g"%s%s%s/>'
            % (path, 2 if thick else 1.2, ' stroke-dasharray="5 4"' if dashed else "",
               ' marker-end="url(#tip)"' if arrow or both else "", ' marker-start="url(#tail)"' if both else ""))

    def save(self):
        for i, (here, text) in enumerate(self.texts):
            for there, other in self.texts[:i]:
                if meets(here, there):
                    self.fail("texts meet: %s / %s" % (text, other))
        for p, q in self.lines:
            for here, text in self.texts:
                if crosses(p, q, here):
                    self.fail("a line through a text: " + text)
            for here, lines, room in self.boxes:
                inner = (here[0] + 1, here[1] + 1, here[2] - 1, here[3] - 1)
                if not room and crosses(p, q, inner):
                    self.fail("a line through a box: %r" % (lines,))
        head = (
            '<svg xmlns="http://www.w3.org/2000/svg" width="%d" height="%d" viewBox="0 0 %d %d">\n'
            "<title>%s</title>\n"
            "<defs>"
            '<marker id="tip" markerWidth="10" markerHeight="8" refX="9" refY="4" orient="auto"><path d="M0,0 L10,4 L0,8 z"/></marker>'
            '<marker id="tail" markerWidth="10" markerHeight="8" refX="1" refY="4" orient="auto"><path d="M10,0 L0,4 L10,8 z"/></marker>'
            "</defs>\n"
            '<rect width="100%%" height="100%%" fill="white"/>\n'
            % (self.width, self.height, self.width, self.height, escaped(self.title)))
        with open(os.path.join(OUT, self.name), "w", encoding="utf-8") as f:
            f.write(head + "\n".join(self.shapes) + "\n</svg>\n")


MONO = {"mono": True}
BOLD = {"bold": True}


# ---- the system and its crates

def system():
    p = Page("system.svg", 1000, 966, "The system: who acts, the turn, both caches, the dies")
    p.words(20, 54, "Crates stand in typewriter letters, beside what they are for. On one thread (solo, bench) the only pass acts for all actors.")

    # who acts
    p.words(20, 86, "Actors. Each has a pass; a pass takes the book, makes at most one event, and gives it back.", bold=True)
    p.box(20, 98, 290, 84, ["lanes: their calls in order", ("crews, crew_calls", MONO),
                            "all on one thread:", ("solo_runs, solo_calls", MONO)])
    p.box(330, 98, 220, 84, ["flushers: unclean blocks", ("flusher, flushes", MONO)])
    p.box(570, 98, 200, 84, ["workers of the drive", ("drive_worker", MONO)])
    p.box(790, 98, 190, 84, ["closer: the last sync", ("settling", MONO)])
    for x in (165, 440, 670, 885):
        p.line([(x, 182), (x, 216)], both=True)

    # the turn
    p.box(20, 217, 960, 86, [
        "the turn: one word and one slot; the slot has the book while no pass holds it", ("turn_cell", MONO),
        ("desk_turns (what a pass knows between two turns), lane_history (from a closed turn to a script)", MONO)], thick=True)
    p.line([(500, 303), (500, 336)], both=True)

    # the book
    p.box(20, 337, 960, 456, fill="#f2f2f2", thick=True, room=True)
    p.words(34, 360, "the book: the state of the system", bold=True)
    p.words(330, 360, "system_state", mono=True)
    p.words(450, 360, "as a book it is System of")
    p.words(640, 360, "lambda_system", mono=True)
    p.words(34, 382, "its start, its events")
    p.words(190, 382, "system_start; system_lanes, _begin, _quick, _pages, _dies, _metas, _ends, _blocks; job_events", mono=True)

    # the tables
    p.box(34, 396, 932, 96, fill="white", room=True)
    p.words(46, 416, "parts that belong to no side")
    cells = [("files", "name_table"), ("blocks of files", "extent_map"), ("written flags", "image_format"),
             ("locked ranges", "range_locks"), ("queue", "index_lists"), ("costs, profiles", "dispatcher")]
    for k, (what, crate) in enumerate(cells):
        p.box(44 + 153 * k, 426, 147, 54, [what, (crate, MONO)])

    # the sides
    p.box(34, 506, 452, 200, fill="white", room=True)
    p.words(48, 528, "host", bold=True)
    p.words(48, 548, "read, write, append, trunc and sync, and those")
    p.words(48, 566, "calls with a function that the costs pick for it")
    p.box(48, 580, 424, 56, ["host cache: 256 frames, and the order of use", ("page_cache", MONO)])
    p.box(48, 644, 424, 52, ["functions run in the lane's hands", ("call_job, span_bytes, sbpf_exec", MONO)])

    p.box(514, 506, 452, 200, fill="white", room=True)
    p.words(528, 528, "drive", bold=True)
    p.words(528, 548, "calls with a function that the costs pick for it; they")
    p.words(528, 566, "go into the queue, and a worker runs them")
    p.box(528, 580, 424, 56, ["drive cache: 128 frames, and the order of use", ("page_cache", MONO)])
    p.box(528, 644, 424, 52, ["functions run in a worker's hands", ("call_job, span_bytes, sbpf_exec", MONO)])

    p.box(34, 718, 932, 62, ["both caches together, with each block's flags and version, and the order of unclean blocks", ("coherence", MONO)])

    # the dies
    p.line([(250, 793), (250, 824)], both=True)
    p.words(264, 814, "a die goes out with an actor, and comes home; it is read and written while it is out", italic=True)
    for k, die in enumerate(["die 0", "die 1", "die 2", "..", "last die"]):
        p.box(20 + 194 * k, 825, 184, 34, [die])
    p.words(20, 880, "Image page p is page p / dies of die p mod dies: first the meta data, then the data blocks.")
    p.box(20, 892, 230, 64, ["what a die is; one in memory", ("flash_die", MONO)])
    p.box(263, 892, 230, 64, ["a die over raw flash", ("ftl_die, flash_raw", MONO)])
    p.box(506, 892, 230, 64, ["two dies that stand for one", ("mirror_die", MONO)])
    p.box(749, 892, 231, 64, ["an image over dies, and back", ("drive_array", MONO)])
    p.save()


# ---- a readl in the drive

def readl():
    rows = [
        ("1  Begin", "lane", [
            (0, ["shared range locked;", "the drive is cheaper"]), (3, ["frames reserved", "for pages 1 and 2"])], []),
        ("2  Submit", "lane", [(0, ["the call is queued:", "nobody owns it"]), (2, ["last in the queue"])], [(0, 2)]),
        ("3  Fetch", "worker", [(2, ["first of the queue;", "running by worker 0"])], []),
        ("4  Copy 0", "worker", [(2, ["page 0 is gathered"]), (3, ["its copy is read,", "and goes last"])], [(3, 2)]),
        ("5  Copy 1", "worker", [
            (1, ["only the host has a", "copy; it is read"]), (2, ["page 1 is gathered"]),
            (3, ["a copy is put in; its", "frame is given up"])], [(1, 2), (2, 3)]),
        ("6  DieOut 2", "worker", [(2, ["the worker holds", "the die"]), (4, ["the die goes out", "to fill page 2"])], [(4, 2)]),
        ("no event", "worker", [(2, ["the die is read,", "outside the turn"])], []),
        ("7  FillIn", "worker", [
            (3, ["page 2 is put in; its", "frame is given up"]), (4, ["the die comes home;", "the read succeeded"])], [(4, 3)]),
        ("8  Copy 2", "worker", [(2, ["page 2 is gathered"]), (3, ["its copy is read,", "and goes last"])], [(3, 2)]),
        ("no event", "worker", [(2, ["the function runs on", "the gathered pages"])], []),
        ("9  Report", "worker", [(0, ["the lane owns the", "call, with the result"]), (2, ["the worker is free"])], [(2, 0)]),
        ("10 End", "lane", [(0, ["next number; reply", "`res BYTES`; the lock", "is given up"])], []),
    ]
    top, step = 182, 66
    height = top + step * len(rows) + 50
    p = Page("readl.svg", 1150, height, "The life of a readl that runs in the drive, event by event")
    p.words(20, 56, "The span has three pages: page 0 has a copy in the drive's cache; page 1 is unclean, with a copy at the host alone; page 2 is written and in")
    p.words(20, 74, "neither cache. Nothing fails. Each event is made in one turn; others may act between them.")
    left, wide, pad = 190, 190, 13
    names = [["lane"], ["host cache"], ["queue and", "worker"], ["drive cache"], ["die"]]
    p.words(20, 122, "event", bold=True)
    p.words(124, 122, "made by", bold=True)
    for k, name in enumerate(names):
        p.box(left + wide * k + pad, 96, wide - 2 * pad, 44, [(n, BOLD) for n in name], fill="#e8e8e8")
    middles = [left + wide * k + wide / 2 for k in range(5)]
    filled = {}
    for r, (event, who, cells, arrows) in enumerate(rows):
        y = top + step * r
        if event == "no event":
            p.words(20, y + 4, event, italic=True)
        else:
            p.words(20, y + 4, event[:2].strip(), mono=True, bold=True)
            p.words(42, y + 4, event[3:], mono=True, bold=True)
        p.words(126, y + 4, who)
        for k, lines in cells:
            h = 18 * len(lines) + 4
            p.box(left + wide * k + pad, y - h / 2, wide - 2 * pad, h, lines, size=12)
            filled.setdefault(k, []).append((y - h / 2, y + h / 2))
        for a, b in arrows:
            side = wide / 2 - pad
            x1 = middles[a] + (side if b > a else -side)
            x2 = middles[b] + (-side if b > a else side)
            p.line([(x1, y), (x2, y)], arrow=True)
        if r:
            p.line([(14, y - step / 2), (left + 2, y - step / 2)])
    # the life lines, between the boxes and beside the arrows
    bottom = top + step * len(rows) - step / 2
    for k in range(5):
        at = 140.0
        for low, high in sorted(filled[k]) + [(bottom, bottom)]:
            if low - at > 1:
                p.line([(middles[k], at), (middles[k], low)], dashed=True)
            at = high
    p.words(20, bottom + 26, "Where the read of page 2 fails, FillIn puts nothing in and marks the lane; the call is reported without a result, and End replies `fault`.")
    p.words(20, bottom + 44, "A trap, and spent fuel, are replies like `res`. A blank page gives zeros, and reserves no frame.")
    p.words(20, bottom + 62, "Definitions: core_state's LaneEvents (Begin to Report), PageEvents (Copy), DieEvents (DieOut, FillIn) and EndEvent (End).")
    p.save()


# ---- two lanes on one turn

def turns():
    # who, what it did, word before the take, word after the give, the entry (number, event, pass), the reply
    rows = [
        ("b", ["Begin of `read f 0 5`:", "page 0 of f is locked, shared"], 12, 14, ("7", "Begin", "pass 2"), None),
        ("a", ["Begin of `write f 0 text:world`:", "refused, b's call is in the way"], 14, 14, None, None),
        ("b", ["Copy: the page is gathered"], 14, 16, ("8", "Copy", "pass 2"), None),
        ("b", ["End: number 3 is drawn"], 16, 18, ("9", "End", "pass 2"), "#3 b.1 data 68656c6c6f"),
        ("a", ["Begin of `write f 0 text:world`:", "page 0 of f is locked, exclusive"], 18, 20, ("10", "Begin", "pass 1"), None),
        ("a", ["Take: the page is lent"], 20, 22, ("11", "Take", "pass 1"), None),
        ("a", ["End: number 4 is drawn"], 22, 24, ("12", "End", "pass 1"), "#4 a.3 ok"),
    ]
    top, step = 244, 84
    height = top + step * len(rows) + 60
    p = Page("turns.svg", 1110, height, "Two lanes on one turn: takes and gives, events and numbered replies")
    p.words(20, 56, "Lane a is lane 0 and has pass 1; lane b is lane 1 and has pass 2. Six events were made before: both Enters, Quick of `create f`, and Begin,")
    p.words(20, 74, "Take and End of `append f text:hello`. Both passes have seen them, and numbers 1 and 2 are drawn. The word is twice the count of events,")
    p.words(20, 92, "and 1 more while a pass holds the book. Time goes down.")
    a_x, word_x, b_x, wide, word_w = 20, 318, 470, 250, 104
    xt, xh, xr = word_x + word_w / 2, 742, 916
    heads = [(a_x, wide, "lane a, pass 1"), (word_x, word_w, "the word"), (b_x, wide, "lane b, pass 2"), (734, 166, "the history"), (910, 184, "replies")]
    for x, w, text in heads:
        p.box(x, 110, w, 38, [(text, BOLD)], fill="#e8e8e8")
    p.words(xh, 172, "1 .. 6", mono=True, size=12)
    p.words(xr, 172, "#1 a.1 id 1", mono=True, size=12)
    p.words(xr, 190, "#2 a.2 at 0", mono=True, size=12)
    spans = []
    for r, (who, lines, before, after, entry, reply) in enumerate(rows):
        y = top + step * r
        p.box(a_x if who == "a" else b_x, y - 22, wide, 44, lines, size=12)
        edge = a_x + wide if who == "a" else b_x
        word_edge = word_x if who == "a" else word_x + word_w
        # take: the book goes from the slot to the lane; give: back
        p.line([(word_edge, y - 12), (edge, y - 12)], arrow=True)
        p.line([(edge, y + 12), (word_edge, y + 12)], arrow=True)
        p.words((edge + word_edge) / 2, y - 17, "take", anchor="middle", italic=True, size=12)
        p.words((edge + word_edge) / 2, y + 26, "give", anchor="middle", italic=True, size=12)
        p.box(word_x, y - 22, word_w, 44, room=True)
        p.words(xt, y - 5, "%d to %d" % (before, before + 1), anchor="middle", mono=True, size=12)
        p.words(xt, y + 15, "%d to %d" % (before + 1, after), anchor="middle", mono=True, size=12)
        if entry:
            for x, word in zip((xh, xh + 28, xh + 84), entry):
                p.words(x, y + 4, word, mono=True, size=12)
        else:
            p.words(xh, y + 4, "no event", italic=True)
        if reply:
            p.words(xr, y + 4, reply, mono=True, size=12)
        spans.append((y - 22, y + 22))
    at = 148.0
    for low, high in spans:
        p.line([(xt, at), (xt, low)], dashed=True)
        at = high
    p.line([(xt, at), (xt, at + 22)], dashed=True)
    # a tries while b holds
    y = top + step * 2
    p.words(a_x + wide, y - 2, "a finds 15, which is odd,", anchor="end", italic=True)
    p.words(a_x + wide, y + 16, "and tries again later", anchor="end", italic=True)
    end = top + step * len(rows) - 34
    p.words(20, end + 20, "In row 2 lane a sees event 7, which another pass made. It makes no event: the book goes back as it was, and the count stays. In row 5 it")
    p.words(20, end + 38, "sees events 8 and 9 as well. A number is drawn at Quick, Skip and End, so the replies stand in the order of these events: b's read before a's write.")
    p.words(20, end + 56, "Definitions: IsTurn in turn_cell's Rule, took and gave in its Steps; calls_of in core_state's History; Stands in system_state.")
    p.save()


# ---- the graph of crates

def read_crates():
    """The groups in order, and of each crate of ours its group and what it stands on."""
    groups, group, stands = [], {}, {}
    for line in open(CRATES, encoding="utf-8"):
        line = line.strip()
        if line.startswith("#"):
            text = line[1:].strip()
            if not text.startswith("NAME"):
                groups.append(text.rstrip("."))
        elif line:
            head, rest = line.split(":", 1)
            name = head.split()[0]
            group[name] = len(groups) - 1
            stands[name] = rest.split()
    return groups, group, stands


def direct(stands):
    """Without what is implied: a crate below another one that is named as well."""
    below = {}

    def all_below(name):
        if name not in below:
            below[name] = set()
            for d in stands.get(name, []):
                below[name] |= {d} | all_below(d)
        return below[name]

    return {n: [d for d in ds if not any(d in all_below(e) for e in ds if e != d)] for n, ds in stands.items()}


def rows_of(edges, names):
    """A row for each crate, above all that it stands on; where there is a choice, near the others."""
    row = {}

    def lowest(n):
        if n not in row:
            row[n] = 1 + max([lowest(d) for d in edges[n]], default=-1)
        return row[n]

    for n in names:
        lowest(n)
    over = {n: [m for m in names if n in edges[m]] for n in names}
    tops = [n for n in names if not over[n]]
    inner = {n: [m for m in over[n] if m not in tops] for n in names}
    for _ in range(30):
        for n in names:
            if n in tops or not inner[n]:
                row[n] = 1 + max([row[d] for d in edges[n]], default=-1)
                continue
            low = 1 + max([row[d] for d in edges[n]], default=-1)
            high = min(row[m] for m in inner[n]) - 1

            def cost(r):
                length = sum(r - row[d] for d in edges[n]) + sum(row[m] - r for m in inner[n])
                crowd = sum(1 for m in names if m != n and row[m] == r)
                return length + 0.3 * crowd

            row[n] = min(range(low, high + 1), key=cost)
    return row


def ordered(layers, links):
    """Orders of the rows with few crossings: means of neighbours, then swaps of neighbours."""
    up, down = {}, {}
    for a, b in links:  # a stands in the row above b
        down.setdefault(a, []).append(b)
        up.setdefault(b, []).append(a)

    def crossings(order, beside):
        count, seen = 0, []
        for n in order:
            spots = sorted(beside.get(n, []))
            for s in spots:
                count += sum(1 for t in seen if t > s)
            seen += spots
        return count

    def total(layers):
        sum_ = 0
        for k in range(len(layers) - 1):
            place = {n: i for i, n in enumerate(layers[k])}
            sum_ += crossings(layers[k + 1], {n: [place[d] for d in down.get(n, [])] for n in layers[k + 1]})
        return sum_

    best, best_count = None, None
    for seed in range(24):
        rng = random.Random(seed)
        now = [list(l) for l in layers]
        for l in now:
            rng.shuffle(l)
        for turn in range(40):
            span = range(1, len(now)) if turn % 2 == 0 else range(len(now) - 2, -1, -1)
            beside = down if turn % 2 == 0 else up
            for k in span:
                other = now[k - 1] if turn % 2 == 0 else now[k + 1]
                place = {n: i for i, n in enumerate(other)}
                here = {n: i for i, n in enumerate(now[k])}

                def mean(n):
                    spots = [place[m] for m in beside.get(n, [])]
                    return sum(spots) / len(spots) if spots else here[n]

                now[k].sort(key=lambda n: (mean(n), here[n]))
        better = True
        while better:
            better = False
            for k in range(len(now)):
                for i in range(len(now[k]) - 1):
                    a, b = now[k][i], now[k][i + 1]

                    def pair(x, y):
                        count = 0
                        for beside, other in ((down, k - 1), (up, k + 1)):
                            if 0 <= other < len(now):
                                place = {n: j for j, n in enumerate(now[other])}
                                for s in beside.get(x, []):
                                    count += sum(1 for t in beside.get(y, []) if place[t] < place[s])
                        return count

                    if pair(b, a) < pair(a, b):
                        now[k][i], now[k][i + 1] = b, a
                        better = True
        count = total(now)
        if best is None or count < best_count:
            best, best_count = now, count
    return best, up, down


def placed(layers, up, down, wide):
    """Middles of all crates and bends, in their order, near the middles of their neighbours."""
    x = {}
    for l in layers:
        at = 0.0
        for n in l:
            x[n] = at + wide(n) / 2
            at += wide(n)
        for n in l:
            x[n] -= at / 2
    for turn in range(2000):
        for k in (range(len(layers)) if turn % 2 == 0 else range(len(layers) - 1, -1, -1)):
            l = layers[k]
            wish = []
            for n in l:
                near = [(x[m], 40.0 if isinstance(m, tuple) and isinstance(n, tuple) else 1.0) for m in up.get(n, []) + down.get(n, [])]
                weight = sum(w for _, w in near)
                wish.append((sum(v * w for v, w in near) / weight if near else x[n], max(weight, 0.1)))
            # the nearest middles that keep the order and the distances
            offset, at = [], 0.0
            for i, n in enumerate(l):
                at += (wide(l[i - 1]) + wide(n)) / 2 if i else 0.0
                offset.append(at)
            blocks = []
            for (v, w), o in zip(wish, offset):
                blocks.append([v - o, w, 1])
                while len(blocks) > 1 and blocks[-2][0] > blocks[-1][0]:
                    b = blocks.pop()
                    a = blocks[-1]
                    a[0] = (a[0] * a[1] + b[0] * b[1]) / (a[1] + b[1])
                    a[1] += b[1]
                    a[2] += b[2]
            i = 0
            for value, _, count in blocks:
                for _ in range(count):
                    x[l[i]] = value + offset[i]
                    i += 1
    return x


def crates():
    groups, group, stands = read_crates()
    edges = direct(stands)
    names = list(stands)
    kit = {n: [d for d in edges[n] if d not in stands] for n in names}
    edges = {n: [d for d in edges[n] if d in stands] for n in names}
    row = rows_of(edges, names)
    layers = [[] for _ in range(max(row.values()) + 1)]
    for n in names:
        layers[row[n]].append(n)
    links, bends = [], {}
    for n in names:
        for d in edges[n]:
            chain = [n]
            for r in range(row[n] - 1, row[d], -1):
                bend = (n, d, r)
                layers[r].append(bend)
                chain.append(bend)
            chain.append(d)
            links += list(zip(chain, chain[1:]))
            bends[n, d] = chain
    layers, up, down = ordered(layers, links)

    def text_width(n):
        words = [chr(65 + group[n]) + " " + n] + [", ".join(kit[n])]
        return max(width_of(t, 12, True) for t in words) + 12

    def wide(n):
        return 16.0 if isinstance(n, tuple) else text_width(n) + 16

    x = placed(layers, up, down, wide)
    least = min(x[n] - wide(n) / 2 for n in x)
    most = max(x[n] + wide(n) / 2 for n in x)
    legend = 100 + 20 * len(groups)
    tall, gap = 42, 44
    width = int(most - least) + 40
    height = legend + len(layers) * (tall + gap) + 10
    p = Page("crates.svg", max(width, 900), height, "The crates, and what each stands on")
    p.words(20, 56, "A line goes down from a crate to one that it stands on. Lines that others imply are left out. The second line of a box has crates")
    p.words(20, 74, "of the kit. The letter is the group in crates.txt:")
    for k, text in enumerate(groups):
        p.words(40, 98 + 20 * k, chr(65 + k) + "  " + text)
    shift = (max(width, 900) - width) / 2 + 20 - least

    def top(r):
        return legend + (len(layers) - 1 - r) * (tall + gap)

    for r, l in enumerate(layers):
        for n in l:
            if isinstance(n, tuple):
                continue
            w = text_width(n)
            lines = [(chr(65 + group[n]) + " " + n, MONO)] + ([(", ".join(kit[n]), MONO)] if kit[n] else [])
            p.box(x[n] + shift - w / 2, top(r), w, tall, lines, size=12, fill="#eeeeee" if group[n] % 2 else "white")

    def port(n, m, beside):
        """Where the line from n towards m leaves n's box."""
        near = sorted(beside[n], key=lambda k: x[k])
        w = text_width(n) - 16
        i = near.index(m)
        return x[n] + shift + (w * ((i + 1) / (len(near) + 1) - 0.5))

    for (n, d), chain in bends.items():
        points = [(port(n, chain[1], down), top(row[n]) + tall)]
        for bend in chain[1:-1]:
            points += [(x[bend] + shift, top(bend[2])), (x[bend] + shift, top(bend[2]) + tall)]
        points.append((port(d, chain[-2], up), top(row[d])))
        p.line(points)
    p.save()


if __name__ == "__main__":
    os.makedirs(OUT, exist_ok=True)
    system()
    readl()
    turns()
    crates()
