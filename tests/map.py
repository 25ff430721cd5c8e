"""The pictures in docs/, drawn from crates.txt, the imports and the code.

python3 tests/map.py             writes them
python3 tests/map.py --compare   they are up to date; names those that are not

docs/map.svg         the families of crates: an arrow leads to a family that is used and reached in no other way
docs/map/NAME.svg    the crates of a family, if it has several, with such arrows; beside them the families that they use
docs/discovery.svg   the data of a discovery, from the bytes heard to the next request

A family is a group of crates.txt: the crates under one comment. It is an error if a crate has no family, if a picture
names a function or a type that is not in the code, if a line runs through a box or a text, if two boxes or texts
overlap, and if a text is wider than its box.
"""
import html
import pathlib
import random
import re
import sys
from dataclasses import dataclass, field
from math import fsum  # its result is the same in every version of Python, which sum's is not

import project

root = pathlib.Path(__file__).resolve().parent.parent
docs = root / "docs"

# Of each family: one of its crates, which tells its group in crates.txt; and what the family is.
FAMILIES = {
    "paper": ("paper", "documents 01 and 02 as definitions, believed; in lore proved laws"),
    "leaves": ("wire", "bytes, checks, frames, ids, what a record says, images"),
    "walk": ("walk", "the search over the bits of ids, on fixed arrays"),
    "select": ("select", "the request that a search sends"),
    "client": ("client", "the operations: starts, requests, what an answer does"),
    "host": ("fahireky", "the client in lent buffers; every call over these"),
    "log": ("log_feed", "stored lines in, a discovery over them, its listing out"),
    "theory": ("theory", "what follows from the paper, and what is promised"),
    "exports": ("fahireky_c", "every call exported, under the contract that is promised"),
    "programs": ("bench_log", "the bench log (it cites log_theory), worked examples, a replay"),
}
# Of each kind of crate: its colour, and its words in the legend.
KINDS = {
    "believed": ("#f6c8cc", "must be believed"),
    "code": ("#cfe3f5", "code"),
    "defined": ("#d5ecc9", "definitions and theorems without code"),
    "program": ("#fbeca6", "programs"),
}
CODE, DATA, WHITE, INK, LINE = KINDS["code"][0], "#edf0f2", "#ffffff", "#1c2833", "#4d5b66"
MARGIN, TOP = 24, 84
COLUMN, ROW = 24, 56  # the space between the boxes of a row, and between rows


# The crates.

def groups():
    """The groups of crates.txt: each a list of crates."""
    out = []
    for line in (root / "crates.txt").read_text().split("\n"):
        if line.startswith("#"):
            out.append([])
        elif ":" in line and not out:
            sys.exit(f"crates.txt: {line.split(':')[0]} stands under no comment, so it has no family")
        elif ":" in line:
            out[-1].append(line.split(":")[0].split()[0])
    return [group for group in out if group]


def families():
    """The crates of each family."""
    out = {}
    for group in groups():
        names = [name for name, (crate, _) in FAMILIES.items() if crate in group]
        if len(names) != 1:
            sys.exit(f"crates.txt: the group {', '.join(group)} is {len(names)} families of tests/map.py, not one")
        out[names[0]] = group
    here = {path.name for path in (root / "crates").iterdir() if path.is_dir()}
    for crate in sorted(here ^ {crate for group in out.values() for crate in group}):
        sys.exit(f"{crate} is not both in crates/ and in crates.txt")
    return out


def code(path):
    """A file's text without its comments."""
    return re.sub(r"//.*" if path.suffix == ".rt" else r"(?m)^\s*--.*", "", path.read_text())


def source(crate):
    """The code of a crate."""
    return "\n".join(code(path) for path in sorted((root / "crates" / crate / "src").glob("*.rt")))


def uses(crate, crates):
    """The crates that a crate's code, definitions and proofs import."""
    folder = root / "crates" / crate
    texts = [code(path) for part in ("src/**/*.rt", "specs/**/*.antt", "proofs/**/*.antt")
             for path in sorted(folder.glob(part))]
    named = set(re.findall(r"Rattle\.(\w+)\.", "\n".join(texts))) | set(re.findall(r"(?<![\w:])(\w+)::", source(crate)))
    return {c for c in named if c in crates and c != crate}


def kind(crate):
    if crate == "paper":
        return "believed"
    if (root / "crates" / crate / "src/main.rt").exists():
        return "program"
    return "code" if re.search(r"\bfn \w", source(crate)) else "defined"


def kind_of_family(crates):
    kinds = {kind(c) for c in crates}
    return next(k for k in ("believed", "program", "code", "defined") if k in kinds)


def first_line(crate):
    """What a crate says of itself in the comment that its source begins with."""
    try:
        return project.purpose(crate).removesuffix(" No code.")
    except project.Faults as faults:
        sys.exit("\n".join(faults.lines))


# Graphs: for each name the set of those that it uses; and lists of lines, each from a name to one that it uses.

def reached(name, graph, seen):
    """Adds all that a name uses, directly or not, to those seen."""
    for other in graph[name] - seen:
        seen.add(other)
        reached(other, graph, seen)
    return seen


def reduced(graph):
    """The lines of a graph without those that a longer way replaces."""
    far = {name: reached(name, graph, set()) for name in graph}
    for name in graph:
        if name in far[name]:
            sys.exit(f"{name} depends on itself")
    return [(a, b) for a in graph for b in sorted(graph[a]) if not any(b in far[c] for c in graph[a])]


def heights(names, lines):
    """How high each name stands: above all that it uses. A name that uses nothing stands just below its users."""
    below = {n: [b for a, b in lines if a == n] for n in names}
    above = {n: [a for a, b in lines if b == n] for n in names}

    def height(name):
        return 1 + max((height(b) for b in below[name]), default=-1)

    out = {n: height(n) for n in names}
    top = max(out.values())
    for n in names:
        if not below[n]:
            out[n] = min((out[a] - 1 for a in above[n]), default=top)
    return out


# Text.

def width(text, size, bold=False):
    """The width of a text in a wide sans-serif font; in most others it is less."""
    narrow, slim, broad = "'ijlIJ ,./:;|", 'f-()[]tr!"', "mwMW…@%+=<>"
    em = fsum(
        0.34 if c in narrow else 0.43 if c in slim else 0.98 if c in broad else 0.75 if c.isupper() else 0.63
        for c in text
    )
    return em * size * (1.13 if bold else 1)


def filled(text, size, room):
    """A text in lines, each filled with words up to the room."""
    lines = [""]
    for word in text.split():
        longer = f"{lines[-1]} {word}".strip()
        if lines[-1] and width(longer, size) > room:
            lines.append(word)
        else:
            lines[-1] = longer
    return lines


def ragged(lines, size):
    """How much the widths of lines differ."""
    widths = [width(line, size) for line in lines]
    return fsum((max(widths) - w) ** 2 for w in widths)


def wrapped(text, size, room, most=9):
    """A text in lines of about the same width, none wider than the room; after so many lines it is cut off."""
    lines = filled(text, size, room)
    if len(lines) <= most:
        ways = [filled(text, size, narrow) for narrow in range(round(room), 60, -4)]
        return min((way for way in ways if len(way) == len(lines)), key=lambda way: ragged(way, size))
    last = lines[most - 1]
    while width(f"{last} …", size) > room:
        last = last.rsplit(" ", 1)[0]
    return lines[: most - 1] + [f"{last.rstrip(',;:')} …"]


@dataclass
class Text:
    text: str
    size: int = 12
    bold: bool = False

    @property
    def wide(self):
        return width(self.text, self.size, self.bold)

    @property
    def high(self):
        return self.size + 4

    def drawn(self, x, y, anchor):
        weight = ' font-weight="bold"' if self.bold else ""
        words = html.escape(self.text, quote=False)
        return f'<text x="{x:.0f}" y="{y:.0f}" text-anchor="{anchor}" font-size="{self.size}"{weight}>{words}</text>'


# A picture: boxes, and arrows between them.

@dataclass
class Box:
    """Texts below each other, in a frame. A box without a colour is a label: it has no frame."""

    texts: list
    wide: float
    fill: str = ""
    dashed: bool = False
    x: float = 0  # of the middle
    y: float = 0  # of the top
    high: float = field(init=False)

    def __post_init__(self):
        self.high = sum(t.high for t in self.texts) + (16 if self.fill else 0)

    @property
    def corners(self):
        return self.x - self.wide / 2, self.y, self.x + self.wide / 2, self.y + self.high

    def drawn(self):
        left, top, _, bottom = self.corners
        out, y = [], (top + bottom - sum(t.high for t in self.texts)) / 2 - 4
        if self.fill:
            dash = ' stroke-dasharray="5 4"' if self.dashed else ""
            size = f'width="{self.wide:.0f}" height="{self.high:.0f}"'
            out.append(f'<rect x="{left:.0f}" y="{top:.0f}" {size} rx="6" fill="{self.fill}" stroke="{LINE}"{dash}/>')
        for t in self.texts:
            y += t.high
            out.append(t.drawn(self.x, y, "middle") if self.fill else t.drawn(left, y, "start"))
        return out


def label(words, left, middle):
    """Lines of text that begin at a place."""
    texts = [Text(line) for line in words]
    wide = max(t.wide for t in texts)
    return Box(texts, wide, x=left + wide / 2, y=middle - sum(t.high for t in texts) / 2)


@dataclass
class Arrow:
    """A line from place to place, with its head at the last. It is curved between places that share neither x nor y."""

    places: list

    def pieces(self):
        for (x, y), (to_x, to_y) in zip(self.places, self.places[1:]):
            yield x, y, to_x, to_y, x != to_x and y != to_y

    def drawn(self):
        path = "M{:.0f} {:.0f}".format(*self.places[0])
        for x, y, to_x, to_y, curved in self.pieces():
            middle = (y + to_y) / 2
            path += f"C{x:.0f} {middle:.0f} {to_x:.0f} {middle:.0f} " if curved else "L"
            path += f"{to_x:.0f} {to_y:.0f}"
        return [f'<path d="{path}" marker-end="url(#head)"/>']

    def samples(self):
        """Places all along the line."""
        for x, y, to_x, to_y, curved in self.pieces():
            for t in (i / 100 for i in range(101)):
                across, down = (t * t * (3 - 2 * t), 1.5 * t * (1 - t) + t**3) if curved else (t, t)
                yield x + (to_x - x) * across, y + (to_y - y) * down

    def crosses(self, corners):
        """Whether the line runs through a box, or close to one that it neither starts from nor leads to."""
        def near(place, room):
            (x, y), (left, top, right, bottom) = place, corners
            return left - room < x < right + room and top - room < y < bottom + room

        room = -1 if near(self.places[0], 1) or near(self.places[-1], 1) else 3
        return any(near(place, room) for place in self.samples())


def overlap(one, two):
    return one[0] < two[2] + 2 and two[0] < one[2] + 2 and one[1] < two[3] + 2 and two[1] < one[3] + 2


@dataclass
class Picture:
    title: str
    wide: int
    high: int
    boxes: list
    arrows: list

    def inside(self, corners):
        return 4 < corners[0] and 4 < corners[1] and corners[2] < self.wide - 4 and corners[3] < self.high - 4

    def faults(self):
        """What is wrong with the picture, as far as the widths of texts are known."""
        for i, box in enumerate(self.boxes):
            name = repr(box.texts[0].text)
            if not self.inside(box.corners):
                yield f"{name} is outside the picture"
            if box.fill and any(t.wide > box.wide - 8 for t in box.texts):
                yield f"a text is wider than the box {name}"
            for other in self.boxes[:i]:
                if overlap(box.corners, other.corners):
                    yield f"{name} overlaps {other.texts[0].text!r}"
            if any(arrow.crosses(box.corners) for arrow in self.arrows):
                yield f"a line runs through {name}"
        for arrow in self.arrows:
            if not all(self.inside((x, y, x, y)) for x, y in arrow.samples()):
                yield "a line runs outside the picture"

    def drawn(self):
        faults = [f"{self.title}: {fault}" for fault in self.faults()]
        if faults:
            sys.exit("\n".join(faults))
        size = f'width="{self.wide}" height="{self.high}"'
        return "\n".join([
            f'<svg xmlns="http://www.w3.org/2000/svg" {size} viewBox="0 0 {self.wide} {self.high}" '
            f'font-family="sans-serif" fill="{INK}">',
            f"<title>{html.escape(self.title)}</title>",
            '<defs><marker id="head" viewBox="0 0 10 10" refX="9" refY="5" markerWidth="9" markerHeight="9" '
            f'orient="auto"><path d="M0 1L10 5L0 9z" fill="{LINE}" stroke="none"/></marker></defs>',
            f'<rect {size} fill="{WHITE}"/>',
            Text(self.title, 18, True).drawn(MARGIN, 34, "start"),
            *(line for box in self.boxes for line in box.drawn()),
            f'<g fill="none" stroke="{LINE}" stroke-width="1.3">',
            *(line for arrow in self.arrows for line in arrow.drawn()),
            "</g>",
            "</svg>\n",
        ])


def legend(entries):
    """A row of small boxes under the title, each a colour and what it stands for."""
    out, x = [], MARGIN
    for fill, words, dashed in entries:
        box = Box([Text(words)], Text(words).wide + 20, fill, dashed, y=46)
        box.high, box.x = 22, x + box.wide / 2
        x += box.wide + 12
        out.append(box)
    return out


def stacked(rows, space):
    """Puts rows of boxes below each other, and returns each row's top and bottom. Its solid boxes are equally high."""
    bands, y = [], TOP
    for row in rows:
        high = max(box.high for box in row)
        for box in row:
            box.y, box.high = y, box.high if box.dashed else high
        bands.append((y, y + high))
        y += high + space
    return bands


# The layout of a graph in rows. Every line leads down. Where it passes a row, it has a slot there between the boxes.
# A way is a line with its slots: its first box, a slot (first box, last box, row) for each row passed, its last box.

def ways_of(lines, row):
    return [[a, *((a, b, r) for r in range(row[a] + 1, row[b])), b] for a, b in lines]


def crossings(rows, pairs):
    """How often lines cross."""
    at = {n: (r, i) for r, row in enumerate(rows) for i, n in enumerate(row)}
    ends = [(*at[a], at[b][1]) for a, b in pairs]
    return sum(r == s and (a - c) * (b - d) < 0 for i, (r, a, b) in enumerate(ends) for s, c, d in ends[:i])


def cost(rows, pairs):
    """How often lines cross; and then how far they lead sideways."""
    aside = {n: i - len(row) / 2 for row in rows for i, n in enumerate(row)}
    return crossings(rows, pairs), sum(abs(aside[a] - aside[b]) for a, b in pairs)


def swapped(rows, pairs):
    """The rows with neighbours swapped as long as that lowers the cost."""
    out, least, better = [list(row) for row in rows], cost(rows, pairs), True
    while better:
        better = False
        for row, i in ((row, i) for row in out for i in range(len(row) - 1)):
            row[i : i + 2] = row[i + 1], row[i]
            now = cost(out, pairs)
            if now < least:
                least, better = now, True
            else:
                row[i : i + 2] = row[i + 1], row[i]
    return out


def ordered(rows, pairs):
    """The rows in the best order found from the given one and from forty others, which are the same in every run."""
    chance = random.Random(1)
    starts = [rows] + [[sorted(row, key=lambda _: chance.random()) for row in rows] for _ in range(40)]
    return min((swapped(start, pairs) for start in starts), key=lambda found: cost(found, pairs))


def spread(wanted, weights, apart):
    """The places closest to those wanted, in their order, and each at least so far apart from the one before."""
    blocks, offset = [], 0
    for want, weight, room in zip(wanted, weights, apart):
        offset += room
        blocks.append(((want - offset) * weight, weight, [offset]))
        while len(blocks) > 1 and blocks[-2][0] / blocks[-2][1] > blocks[-1][0] / blocks[-1][1]:
            blocks[-2:] = [tuple(a + b for a, b in zip(*blocks[-2:]))]
    return [total / weight + offset for total, weight, offsets in blocks for offset in offsets]


def weighed(pairs, stiff):
    """The neighbours of each name, with weights: the given one where two have only each other there, else 1."""
    near = {}
    for a, b in pairs:
        only = sum(x == a for x, _ in pairs) == sum(y == b for _, y in pairs) == 1
        near.setdefault(a, []).append((b, stiff if only else 1))
        near.setdefault(b, []).append((a, stiff if only else 1))
    return near


def columns(rows, pairs, wide):
    """Where the middle of each box and slot is: close to its neighbours, and straight above one that it has alone."""
    x = {n: 0.0 for row in rows for n in row}
    apart = [[0] + [(wide(a) + wide(b)) / 2 + COLUMN for a, b in zip(row, row[1:])] for row in rows]
    for stiff in (1, 8, 64, 512):
        near = weighed(pairs, stiff)
        for turn in range(120):
            for r in range(len(rows)) if turn % 2 else reversed(range(len(rows))):
                pulls = [near.get(n, [(n, 1)]) for n in rows[r]]
                weights = [sum(w for _, w in pull) for pull in pulls]
                wanted = [fsum(x[m] * w for m, w in pull) / weight for pull, weight in zip(pulls, weights)]
                x.update(zip(rows[r], spread(wanted, weights, apart[r])))
    return {n: round(at) for n, at in x.items()}


def ports(box, others):
    """Where the lines to or from others meet the edge of a box: side by side, in the order of the others' places."""
    step = min(28, (box.wide - 30) / max(len(others), 1))
    return {o: round(box.x + (i - (len(others) - 1) / 2) * step) for i, (_, o) in enumerate(sorted(others))}


def straightened(places):
    """The places of a line without bends of a few pixels."""
    out = places[-1:]
    for x, y in reversed(places[:-1]):
        out.append((out[-1][0] if abs(x - out[-1][0]) < 9 else x, y))
    return out[::-1]


def arrows_of(boxes, ways, x, bands):
    """An arrow along each way."""
    leave = {n: ports(boxes[n], [(x[way[1]], way[-1]) for way in ways if way[0] == n]) for n in boxes}
    enter = {n: ports(boxes[n], [(x[way[-2]], way[0]) for way in ways if way[-1] == n]) for n in boxes}
    arrows = []
    for a, *slots, b in ways:
        start, end = leave[a][b], enter[b][a]
        passed = [(x[slot], y) for slot in slots for y in bands[slot[2]]]
        last = [(end, boxes[b].y - 14), (end, boxes[b].y)]
        arrows.append(Arrow(straightened([(start, boxes[a].corners[3]), *passed, *last])))
    return arrows


def arranged(title, boxes, height, lines, entries, note=""):
    """A picture of boxes in rows by their heights, with an arrow for each line, a legend, and a note below."""
    def wide(n):
        return boxes[n].wide if n in boxes else 10

    row = {n: max(height.values()) - height[n] for n in boxes}
    ways = ways_of(lines, row)
    pairs = [pair for way in ways for pair in zip(way, way[1:])]
    row.update((slot, slot[2]) for way in ways for slot in way[1:-1])
    rows = ordered([[n for n in row if row[n] == r] for r in range(max(row.values()) + 1)], pairs)
    x = columns(rows, pairs, wide)
    left, right = min(x[n] - wide(n) / 2 for n in x), max(x[n] + wide(n) / 2 for n in x)
    head = legend(entries)
    room = round(max(right - left, head[-1].corners[2] - MARGIN, width(title, 18, True), width(note, 12)) + 2 * MARGIN)
    x = {n: at + round((room - left - right) / 2) for n, at in x.items()}
    for n in boxes:
        boxes[n].x = x[n]
    bands = stacked([[boxes[n] for n in names if n in boxes] for names in rows], ROW)
    foot = [label([note], MARGIN, bands[-1][1] + 30)] if note else []
    high = bands[-1][1] + MARGIN + 28 * len(foot)
    return Picture(title, room, high, [*boxes.values(), *head, *foot], arrows_of(boxes, ways, x, bands))


# The maps of the crates.

def box_of(name, what, small, wide, fill, size=12):
    """A box with a name, a text, and a list in small."""
    texts = [Text(name, size + 3, True)]
    texts += [Text(line, size) for line in wrapped(what, size, wide - 14, 6)] if what else []
    texts += [Text(line, size - 1) for line in wrapped(small, size - 1, wide - 14)] if small else []
    return Box(texts, wide, fill)


def kinds_legend(kinds):
    return [(*KINDS[k], False) for k in KINDS if k in kinds]


def map_of_families(members, graph):
    family = {c: name for name, crates in members.items() for c in crates}
    lines = reduced({name: {family[b] for a in crates for b in graph[a]} - {name} for name, crates in members.items()})
    kinds = {name: kind_of_family(crates) for name, crates in members.items()}
    boxes = {
        name: box_of(name, FAMILIES[name][1], ", ".join(crates), 460, KINDS[kinds[name]][0], 13)
        for name, crates in members.items()
    }
    title = "The families of crates, each above those that it depends on"
    return arranged(title, boxes, heights(boxes, lines), lines, kinds_legend(kinds.values()))


def common_width(crates, height, small):
    """The width of a crate's box with which each row fits into the picture, beside its small boxes."""
    out = [290]
    for h in sorted(set(height.values())):
        row = [n for n in height if height[n] == h]
        count = sum(n in crates for n in row)
        if count:
            out.append((905 - COLUMN * len(row) - small * (len(row) - count)) // count)
    return max(190, min(out))


def map_of_family(name, members, graph):
    """The crates of a family, and beside them the families with a crate that they use and reach in no other way."""
    crates, small = members[name], 150
    lines = [(a, b) for a, b in reduced(graph) if a in crates]
    ends = {b for _, b in lines}
    beside = {f"the {f} family": [c for c in cs if c in ends] for f, cs in members.items() if f != name}
    beside = {f: cs for f, cs in beside.items() if cs}
    height = heights(crates, [(a, b) for a, b in lines if b in crates])
    height.update([(f, min(height[a] for a, b in lines if b in cs) - 1) for f, cs in beside.items()])
    wide = common_width(crates, height, small)
    boxes = {c: box_of(c, first_line(c), "", wide, KINDS[kind(c)][0]) for c in crates}
    for f, cs in beside.items():
        boxes[f] = box_of(f.split()[1], "", ", ".join(cs), small, WHITE)
        boxes[f].dashed = True
    target = {c: f for f, cs in beside.items() for c in cs}
    lines = sorted({(a, target.get(b, b)) for a, b in lines})
    entries = kinds_legend({kind(c) for c in crates})
    entries += [(WHITE, "another family, with the crates that the arrows lead to", True)] if beside else []
    return arranged(f"The {name} family", boxes, height, lines, entries, also_used(name, members, graph, beside))


def also_used(name, members, graph, beside):
    """A note of the families that a family imports from, but that no arrow leads to."""
    used = {b for a in members[name] for b in graph[a]}
    more = [f for f, cs in members.items() if f != name and f"the {f} family" not in beside and used & set(cs)]
    return f"Also used, and reached through these: {', '.join(more)}." if more else ""


# The picture of a discovery. Types, fields and parameters are read from the code; the other names are checked.

def wrong(what):
    sys.exit(f"docs/discovery.svg: {what}")


def shown(crate, name):
    """A struct of a crate with its fields, or an enum with its variants."""
    found = re.search(rf"\b(struct|enum) {name} \{{(.*?)\n\}}", source(crate), re.S)
    if not found:
        wrong(f"crates/{crate} has no type {name}")
    parts = ", ".join(re.findall(r"(?m)^    (?:pub )?(\w+)", found[2]))
    return f"{name} {{ {parts} }}" if found[1] == "struct" else f"{name}: {parts}"


def taken(function, *names):
    """Some parameters of a function, with their types."""
    crate, name = function.split("::")
    found = re.search(rf"\bfn {name}\(([^)]*)\)", source(crate))
    if not found:
        wrong(f"there is no {function}")
    types = dict(re.findall(r"(\w+): ([^,]+)", found[1]))
    if not set(names) <= set(types):
        wrong(f"{function} takes {', '.join(types)}, not {', '.join(names)}")
    short = {n: re.sub(r"\w+::", "", types[n].strip()) for n in names}
    return ", ".join(f"{n}: {short[n]}" for n in names)


def check_names(boxes):
    """Each path in the texts, as crate::function or crate::Type::function, is in the code of that crate."""
    paths = {path for box in boxes for t in box.texts for path in re.findall(r"\b\w+(?:::\w+)+", t.text)}
    for path in sorted(paths):
        crate, *names = path.split("::")
        if not all(re.search(rf"\b(?:fn|struct|enum) {name}\b", source(crate)) for name in names):
            wrong(f"there is no {path}")


def check_calls():
    """Where one function of the picture passes data to another in a crate below, it is still called from there."""
    for crate, function in (
        ("hearing", "reader::read"),
        ("client_record", "hearing::hear"),
        ("client_record", "walk_step::step"),
        ("host_buffers", "host_state::apply"),
        ("client_request", "select::write_select"),
    ):
        if f"{function}(" not in source(crate):
            wrong(f"crates/{crate} does not call {function}")


def discovery_rows():
    """The boxes in rows. The left column is read downwards, then the right one upwards."""
    def step(name, what, x=174, wide=300, fill=CODE, dashed=False):
        lines = what if isinstance(what, list) else wrapped(what, 12, wide - 16)
        return Box([Text(name, 14, True)] + [Text(line) for line in lines], wide, fill, dashed, x)

    def right(name, what, **more):
        return step(name, what, 776, 400, **more)

    front, place, verdict = shown("client", "Front"), shown("walk", "Place"), shown("client", "Verdict")
    begun = "the list of ids; begun by client_start::open_discover"
    going = "the discovery goes on, or it ends: with its list, or refused"
    return [
        [
            step("bytes heard", "one record, in the host's buffer", fill=DATA),
            right("the host", "sends the request, and listens", fill=WHITE, dashed=True),
        ],
        [
            step("reader::read", "finds the next A5, tests the frame's length and check"),
            right("select::write_select", "writes head, seed, bit count, prefix bits and check"),
        ],
        [
            step("hearing::hear", "reads frame after frame; an echo is no reply"),
            right("client_request::ask", "walk::Place::asks gives the next prefix; the seed goes up by one"),
        ],
        [
            step("client_record::decide", "tests the turn, and passes what was heard on to the walk"),
            right("the client", [front, place, begun], fill=DATA),
        ],
        [
            step("walk_step::step", "goes down, climbs, turns; keeps an id once it is confirmed"),
            step("host_state::apply", "in lent bytes; the front by host_state::save_front", 671, 190),
            step("client_record::told", "by value; the walk by client_record::walk_after", 881, 190),
        ],
        [
            step("client_record::walked", "what the walk's move makes of the client"),
            right("client::Verdict", [verdict.removeprefix("Verdict "), going], fill=DATA),
        ],
    ]


def upright(start, end, *words):
    """An arrow between boxes of neighbouring rows, in the middle of the narrower one, with words beside it."""
    x = min((start, end), key=lambda box: box.wide).x
    y, to = (start.corners[3], end.y) if start.y < end.y else (start.y, end.corners[3])
    return Arrow([(x, y), (x, to)]), [label(words, x + 9, (y + to) / 2)] if words else []


def level(start, end, word):
    """An arrow between boxes of a row, with a word above it."""
    y = start.y + start.high / 2
    x, to = (start.corners[2], end.corners[0]) if start.x < end.x else (start.corners[0], end.corners[2])
    return Arrow([(x, y), (to, y)]), [label([word], (x + to - Text(word).wide) / 2, y - 12)]


def discovery():
    rows = discovery_rows()
    bands = stacked(rows, 60)
    (heard, host), (read, select), (hear, ask), (decide, client), (step, apply, told), (walked, verdict) = rows
    parts = [
        level(host, heard, "what was heard"),
        upright(heard, read, taken("reader::read", "bytes", "at")),
        upright(read, hear, "a frame, or why none was read", shown("reader", "Unread")),
        upright(hear, decide, shown("hearing", "Hearing"), shown("hearing", "Heard")),
        level(client, decide, taken("client_record::decide", "f", "p", "count")),
        upright(decide, step, taken("walk_step::step", "p", "count", "phase", "h")),
        upright(step, walked, shown("walk_step", "Move"), shown("walk_step", "End")),
        level(walked, verdict, "what decide returns"),
        upright(verdict, apply, taken("host_state::apply", "change")),
        upright(verdict, told, taken("client_record::told", "v")),
        upright(apply, client, "place moved, row kept"),
        upright(told, client),
        upright(client, ask, taken("client_request::ask", "f", "p")),
        upright(ask, select, *(taken("select::write_select", *names) for names in (("seed", "bits"), ("count",)))),
        upright(select, host, "the request's bytes"),
    ]
    boxes = [box for row in rows for box in row] + [box for _, labels in parts for box in labels]
    check_names(boxes)
    check_calls()
    boxes += legend([(CODE, "function", False), (DATA, "data", False), (WHITE, "outside", True)])
    title = "One discovery: from the bytes heard to the next request (data flow, not call order)"
    return Picture(title, 1000, bands[-1][1] + MARGIN, boxes, [arrow for arrow, _ in parts])


# All of them.

def pictures():
    """The text of each picture, by its file."""
    members = families()
    crates = [c for cs in members.values() for c in cs]
    graph = {c: uses(c, crates) for c in crates}
    out = {docs / "map.svg": map_of_families(members, graph), docs / "discovery.svg": discovery()}
    for name in members:
        if len(members[name]) > 1:
            out[docs / f"map/{name}.svg"] = map_of_family(name, members, graph)
    return {path: picture.drawn() for path, picture in out.items()}


def compare(drawn, others):
    """Names each picture that is not up to date, and each file that is none."""
    bad = [f"{p.relative_to(root)} is out of date" for p in drawn if not p.exists() or p.read_text() != drawn[p]]
    bad += [f"{p.relative_to(root)} is none of the pictures" for p in others]
    if bad:
        sys.exit("\n".join(bad + ["run python3 tests/map.py"]))


def main(arguments):
    if arguments not in ([], ["--compare"]):
        sys.exit(__doc__)
    drawn = pictures()
    others = [p for p in sorted((docs / "map").glob("*")) if p not in drawn]
    if arguments:
        return compare(drawn, others)
    (docs / "map").mkdir(exist_ok=True)
    for path in others:
        path.unlink()
    for path, text in drawn.items():
        path.write_text(text)


if __name__ == "__main__":
    main(sys.argv[1:])
