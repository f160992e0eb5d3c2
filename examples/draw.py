#!/usr/bin/env python3
"""Draws a schedule as SVG: steps go up, actions or time go to the right, and each image is a bar from where it is stored to
where it goes. The counts stand below.

    examples/draw.py [--title=TEXT] [--x=actions|cost] SCHEDULE [BOOK] > PICTURE

SCHEDULE is a text as docs/FORMATS.md has it, or - for standard input. What `plan` writes is one, with its certificate. BOOK
gives the levels in their order, with slots and costs; without it RAM comes first, and the others as they are named.

--title  stands above, on as many lines as it takes; where there is none, the kind of the plan and its steps stand there
--x      what goes to the right: `actions`, each as wide as the others, which is so where nothing is said; or `cost`, which
         is time: each action is as wide as what it costs by the book

The kind is that of the certificate. A plan without one is periodic where the images of the second level lie as far apart as
one another, and just a schedule elsewhere. Any text of a schedule is drawn, a broken one too: draw.py judges nothing."""
import json
import re
import sys
import textwrap
from dataclasses import dataclass, field
from itertools import accumulate
from xml.sax.saxutils import escape

# A colour for the bar of each level, from the fastest on, and one for its edge and its marks.
LEVELS = [("#9cc3ee", "#1f5fa8"), ("#f9c978", "#b26a00"), ("#a9d8a0", "#2f7d32"), ("#dcb3e6", "#7b2f95")]
INK, QUIET, GRID, REVERSED = "#1f2937", "#6b7280", "#e5e7eb", "#f3f4f6"
TAPED, BACK = "#c81e4a", "#0f766e"
RIGHT = 22
LETTER, TITLE_LETTER = 7, 10  # how wide a letter of a text of 12 pixels is, and one of a title: about, and rather less than more
KINDS = {"revolve": "Revolve", "places": "Multistage", "nested": "H-Revolve", "disk": "Disk"}  # by the kind of the certificate


@dataclass
class Forward:
    start: int
    end: int
    store: str | None = None
    taped: bool = False


@dataclass
class Reverse:
    start: int
    end: int


@dataclass
class Load:
    """a Copy or a Move, to the state in work where `target` is None"""
    state: int
    source: str
    target: str | None
    frees: bool


@dataclass
class End:
    forward: bool


@dataclass
class Bar:
    """an image on a level, from the action that puts it there to the one that frees it; None where none does"""
    level: str
    state: int
    begin: int
    end: int | None = None


@dataclass
class Span:
    """when an action begins, when it has written the image that a Forward stores, and when it ends"""
    begin: int
    ready: int
    end: int


@dataclass
class Counts:
    forward: int = 0
    taped: int = 0
    reversed: int = 0
    writes: dict = field(default_factory=dict)
    reads: dict = field(default_factory=dict)


# What is read

NUMBER = r"(0|[1-9][0-9]{0,5}|1000000)"
PLACE = r"([A-Z][A-Z0-9_]{0,15})"
SHAPES = {
    "Forward": rf"Forward \( {NUMBER} , {NUMBER} , (True|False) , (True|False) , {PLACE} \)",
    "Reverse": rf"Reverse \( {NUMBER} , {NUMBER} , True \)",
    "Copy": rf"Copy \( {NUMBER} , {PLACE} , {PLACE} \)",
    "Move": rf"Move \( {NUMBER} , {PLACE} , {PLACE} \)",
    "EndForward": r"EndForward \( \)",
    "EndReverse": r"EndReverse \( \)",
}


def action(line):
    """The action of a line, and None where it has none. A ValueError where it is neither empty, nor a comment, nor an action."""
    tokens = re.findall(r"[A-Za-z0-9_]+|[^ \t\r]", line)
    if not tokens or tokens[0] == "#":
        return None
    found = re.fullmatch(SHAPES.get(tokens[0], "(?!)"), " ".join(tokens))
    if not found:
        raise ValueError("is no action")
    return MAKERS[tokens[0]](*found.groups())


def forward(start, end, stores, tapes, place):
    kinds = {("False", "False"): place in ("NONE", "WORK"), ("True", "False"): place not in ("NONE", "WORK"), ("False", "True"): place == "WORK"}
    if not kinds.get((stores, tapes), False):
        raise ValueError("has truths that don't fit its place")
    if tapes == "True" and int(end) != int(start) + 1:
        raise ValueError("puts more than one step to the tape")
    return Forward(int(start), int(end), place if stores == "True" else None, tapes == "True")


def reverse(start, end):
    if int(start) != int(end) + 1:
        raise ValueError("doesn't reverse one step")
    return Reverse(int(start), int(end))


def load(state, source, target, frees):
    if source in ("NONE", "WORK") or target == "NONE":
        raise ValueError("names no level")
    return Load(int(state), source, None if target == "WORK" else target, frees)


MAKERS = {
    "Forward": forward,
    "Reverse": reverse,
    "Copy": lambda *words: load(*words, False),
    "Move": lambda *words: load(*words, True),
    "EndForward": lambda: End(True),
    "EndReverse": lambda: End(False),
}


def schedule(text):
    actions = []
    for number, line in enumerate(text.split("\n"), 1):
        try:
            read = action(line)
        except ValueError as wrong:
            raise ValueError(f"line {number} {wrong}: {line.strip()}") from None
        if read is not None:
            actions.append(read)
    return actions


def named_levels(actions):
    """The names of the levels that the actions name, RAM first and then the others in the order in which they are named."""
    names = {}
    for act in actions:
        for name in (getattr(act, "store", None), getattr(act, "source", None), getattr(act, "target", None)):
            if name is not None:
                names[name] = None
    return sorted(names, key=lambda name: name != "RAM")


def period(actions, level):
    """How far apart the images on the level are stored, from state 0 on and each once; None where they aren't so."""
    starts = [act.start for act in actions if isinstance(act, Forward) and act.store == level]
    apart = next((act.end for act in actions if isinstance(act, Forward) and act.store == level), 0)
    return apart if starts and starts == [apart * place for place in range(len(starts))] else None


def many(number, one, more):
    return f"{number:,} {one if number == 1 else more}"


def steps_of(actions):
    return max([0] + [max(act.start, act.end) for act in actions if isinstance(act, (Forward, Reverse))])


def told_title(text, actions, levels):
    """What stands above a schedule without a title: its kind, and its steps."""
    certificate = re.search(r"^#![ \t\r]*([a-z]+)", text, re.MULTILINE)
    steps = many(steps_of(actions), "step", "steps")
    if certificate and certificate[1] in KINDS:
        return f"{KINDS[certificate[1]]}: {steps}"
    apart = period(actions, levels[1]) if len(levels) == 2 else None
    return f"Periodic: {steps}, period {apart:,}" if apart else f"Schedule: {steps}"


# What is told of it

def bars(actions):
    """The images of the schedule, each from the action that puts it to the one that frees it."""
    done, held = [], {}
    for place, act in enumerate(actions):
        if isinstance(act, Load) and act.frees and (act.source, act.state) in held:
            bar = held.pop((act.source, act.state))
            bar.end = place
        level = act.store if isinstance(act, Forward) else act.target if isinstance(act, Load) else None
        if level is not None:
            state = act.start if isinstance(act, Forward) else act.state
            held[level, state] = Bar(level, state, place)
            done.append(held[level, state])
    return done


def counts(actions, levels):
    told = Counts(writes=dict.fromkeys(levels, 0), reads=dict.fromkeys(levels, 0))
    for act in actions:
        if isinstance(act, Forward):
            told.forward += act.end - act.start
            told.taped += act.taped
        told.reversed += isinstance(act, Reverse)
        written = getattr(act, "store", None) or getattr(act, "target", None)
        if written:
            told.writes[written] += 1
        if isinstance(act, Load):
            told.reads[act.source] += 1
    return told


def most_at_once(all_bars, level):
    """How many images the level holds at once at most."""
    ends = [(bar.begin, 1) for bar in all_bars if bar.level == level]
    ends += [(bar.end, -1) for bar in all_bars if bar.level == level and bar.end is not None]
    most = now = 0
    for _, change in sorted(ends):
        now += change
        most = max(most, now)
    return most


def cost(told, book):
    """What the schedule costs by the book."""
    total = told.forward * book["forward"] + told.reversed * book["reverse"]
    for level in book["levels"]:
        total += told.writes[level["name"]] * level["write"] + told.reads[level["name"]] * level["read"]
    return total


def spans(actions, book):
    """When the actions begin and end: by what they cost where there is a book, and one after the other where there is none."""
    if not book:
        return [Span(place, place, place + 1) for place in range(len(actions))]
    levels = {level["name"]: level for level in book["levels"]}
    writes, rests = [], []
    for act in actions:
        stored, target, source = (getattr(act, name, None) for name in ("store", "target", "source"))
        rest = levels[source]["read"] if source else 0
        rest += levels[target]["write"] if target else 0
        if isinstance(act, (Forward, Reverse)):
            rest += book["forward"] * (act.end - act.start) if isinstance(act, Forward) else book["reverse"]
        writes.append(levels[stored]["write"] if stored else 0)
        rests.append(rest)
    ends = [0, *accumulate(map(sum, zip(writes, rests)))]
    return [Span(begin, begin + write, end) for begin, write, end in zip(ends, writes, ends[1:])]


# What is drawn

class Picture:
    """The places of the times and of the states, and the lines of the SVG text so far. `timed` says that the costs go along x."""

    def __init__(self, actions, levels, times, timed, title):
        self.actions, self.levels, self.spans, self.timed = actions, levels, times, timed
        self.steps = steps_of(actions)
        self.time = times[-1].end if times else 0
        self.unit = min(36, 880 / max(1, self.time))
        self.column = self.unit * self.time / max(1, len(actions))  # how wide an action is; by costs, on the average
        self.row = min(32, 400 / max(1, self.steps))
        self.wide = max(self.unit * self.time, 560)
        self.high = self.row * max(1, self.steps)
        self.left = max(58, 42 + LETTER * len(f"{self.steps:,}"))
        self.title = textwrap.wrap(title, int(self.wide / TITLE_LETTER))
        self.top = 26 + 20 * max(1, len(self.title))
        self.line = max(0.3, min(1, self.column / 8, self.row / 6))  # by how much lines are thinner than they are at best
        self.dotted = self.column >= 4 and self.row >= 4  # whether there is room for dots
        self.text = []

    def x(self, time):
        return round(self.left + self.unit * time, 2)

    def y(self, state):
        return round(self.top + self.high - self.row * state, 2)

    def put(self, line):
        self.text.append(line)

    def label(self, x, y, words, size=12, ink=INK, anchor="start", more=""):
        self.put(f'<text x="{x:.5g}" y="{y:.5g}" font-size="{size}" fill="{ink}" text-anchor="{anchor}"{more}>{escape(words)}</text>')

    def dot(self, x, y, size, fill, edge="none"):
        self.put(f'<circle cx="{x:.6g}" cy="{y:.6g}" r="{size:.3g}" fill="{fill}" stroke="{edge}" stroke-width="{1.6 * self.line:.3g}"/>')

    def path(self, pieces, ink, wide, more=""):
        if pieces:
            ends = 'stroke-linecap="round" stroke-linejoin="round"'
            self.put(f'<path d="{" ".join(pieces)}" fill="none" stroke="{ink}" stroke-width="{wide:.3g}" {ends}{more}/>')

    def colours(self, level):
        """Those of the bars of a level, and of their edges."""
        return LEVELS[self.levels.index(level) % len(LEVELS)]

    def bar(self, x, y, wide, high, level, line=1):
        """A bar whose left end has its middle there."""
        fill, edge = self.colours(level)
        shape = f'x="{x:.6g}" y="{y - high / 2:.6g}" width="{wide:.6g}" height="{high:.3g}" rx="{min(3, high / 3):.3g}"'
        self.put(f'<rect {shape} fill="{fill}" stroke="{edge}" stroke-width="{0.9 * line:.3g}"/>')


def ticks(most, wanted):
    """Round numbers from 0 to `most`, about as many as are wanted."""
    for apart in (10 ** power * digit for power in range(9) for digit in (1, 2, 5)):
        if most <= apart * wanted:
            return range(0, most + 1, apart)
    return [0, most]


def draw_axes(picture):
    right, low = picture.left + picture.wide, picture.top + picture.high
    for state in ticks(picture.steps, max(2, min(20, int(picture.high / 18)))):
        picture.put(f'<path d="M{picture.left} {picture.y(state)}H{right:.6g}" stroke="{GRID}"/>')
        picture.label(picture.left - 8, picture.y(state) + 4, f"{state:,}", 11, QUIET, "end")
    apart = LETTER * len(f"{picture.time:,}") + 24
    for time in ticks(picture.time, max(2, min(20, int(picture.unit * picture.time / apart)))):
        if picture.timed:
            picture.put(f'<path d="M{picture.x(time)} {low:.6g}v5" stroke="{QUIET}"/>')
            picture.label(picture.x(time), low + 22, f"{time:,}", 11, QUIET, "middle")
        elif time > 0:
            picture.label(picture.x(time - 0.5), low + 22, f"{time:,}", 11, QUIET, "middle")
    picture.label(picture.left + picture.wide / 2, low + 40, "time, by the costs of the book" if picture.timed else "actions", 12, INK, "middle")
    middle = picture.top + picture.high / 2
    picture.label(16, middle, "steps", 12, INK, "middle", f' transform="rotate(-90 16 {middle:.6g})"')


def draw_reversed(picture):
    """The ground of the steps that are reversed already."""
    corners = []
    for span, act in zip(picture.spans, picture.actions):
        if isinstance(act, Reverse):
            corners += [(picture.x(span.begin), picture.y(act.start)), (picture.x(span.end), picture.y(act.end))]
    if corners:
        end, top = picture.x(picture.time), picture.top
        corners = [(corners[0][0], top), *corners, (end, corners[-1][1]), (end, top)]
        picture.put(f'<path d="M{" ".join(f"{x} {y}" for x, y in corners)}Z" fill="{REVERSED}"/>')


def name_reversed(picture):
    """The name of that ground, where there is room for it, before the lines of the states."""
    end = picture.x(picture.time)
    begins = [picture.x(span.begin) for span, act in zip(picture.spans, picture.actions) if isinstance(act, Reverse)]
    if begins and end - begins[0] > 160 and picture.high > 100:
        picture.label(end - 10, picture.top + 20, "reversed", 12, QUIET, "end", f' stroke="{REVERSED}" stroke-width="5" paint-order="stroke"')


def thickness(picture, level):
    """How thick a bar is: a slower level has thicker bars, so that a faster one shows before it."""
    return max(0.8, min(9 + 4 * picture.levels.index(level), picture.row * (0.32 + 0.14 * picture.levels.index(level))))


def draw_bars(picture, all_bars):
    for level in reversed(picture.levels):
        for bar in (bar for bar in all_bars if bar.level == level):
            begin = picture.x(picture.spans[bar.begin].begin)
            end = picture.x(picture.time if bar.end is None else picture.spans[bar.end].end)
            picture.bar(begin, picture.y(bar.state), end - begin, thickness(picture, level), level, picture.line)


def strokes(picture):
    """The pieces of the paths: forward steps, taped ones, reversals, and the ways where images are read and written."""
    steps, taped, back, ways = [], [], [], []
    pen = 0
    for span, act in zip(picture.spans, picture.actions):
        begin, ready, end = map(picture.x, (span.begin, span.ready, span.end))
        if isinstance(act, (Forward, Reverse)):
            if begin < ready:
                ways.append(f"M{begin} {picture.y(act.start)}H{ready}")
            line = f"M{ready} {picture.y(act.start)}L{end} {picture.y(act.end)}"
            (back if isinstance(act, Reverse) else taped if act.taped else steps).append(line)
            pen = act.end
        elif isinstance(act, Load):
            to = pen if act.target else act.state
            ways.append(f"M{begin} {picture.y(pen)}L{end} {picture.y(to)}")
            pen = to
    return steps, taped, back, ways


def draw_strokes(picture):
    steps, taped, back, ways = strokes(picture)
    thin = picture.line
    picture.path(ways, QUIET, 1.3 * thin, f' stroke-dasharray="{0.1:g} {3 * thin:.3g}"')
    picture.path(steps, INK, 1.7 * thin)
    picture.path(taped, TAPED, 3.6 * thin)
    picture.path(back, BACK, 2.4 * thin, f' stroke-dasharray="{5 * thin:.3g} {4 * thin:.3g}"')


def ends_forward(actions):
    """The place of each EndForward, and the state that it hands out, which is the one in work."""
    work, found = 0, []
    for place, act in enumerate(actions):
        if isinstance(act, End) and act.forward:
            found.append((place, work))
        work = act.end if isinstance(act, Forward) else act.state if isinstance(act, Load) and act.target is None else work
    return found


def draw_dots(picture):
    """A ring where an image is taken and kept, a full one where its slot is freed, and a dot for each state that is handed out."""
    size = 3.4 * picture.line
    for span, act in zip(picture.spans, picture.actions):
        if isinstance(act, Load):
            _, edge = picture.colours(act.source)
            picture.dot(picture.x(span.end), picture.y(act.state), size, edge if act.frees else "white", edge)
        elif isinstance(act, Reverse):
            picture.dot(picture.x(span.end), picture.y(act.end), size * 0.8, BACK)
    for place, state in ends_forward(picture.actions):
        span = picture.spans[place]
        picture.dot(picture.x((span.begin + span.end) / 2), picture.y(state), size, BACK, INK)


# What stands below

# Each sample is drawn by a function of its left end and its middle, and is 28 pixels wide.

def stroke_sample(picture, ink, wide, rise, dashes=""):
    more = f' stroke-dasharray="{dashes}"' if dashes else ""
    return lambda x, y: picture.path([f"M{x:.6g} {y + rise:.6g}L{x + 26:.6g} {y - rise:.6g}"], ink, wide, more)


def dot_sample(picture, size, edge):
    return lambda x, y: picture.dot(x + 24, y, size, BACK, edge)


def bar_sample(picture, level):
    return lambda x, y: picture.bar(x, y, 26, 10, level)


def ring_sample(picture, level, frees):
    def draw(x, y):
        _, edge = picture.colours(level)
        picture.bar(x, y, 26, 10, level)
        picture.dot(x + (26 if frees else 13), y, 3.4, edge if frees else "white", edge)
    return draw


def strokes_told(picture):
    steps, taped, back, ways = strokes(picture)
    if steps:
        yield "forward steps", stroke_sample(picture, INK, 1.7, 5)
    if taped:
        yield "a step to the tape", stroke_sample(picture, TAPED, 3.6, 5)
    if back:
        yield "a reversed step", stroke_sample(picture, BACK, 2.4, -5, "5 4")
    if ways:
        yield "an image is read or written" if picture.timed else "an image is read", stroke_sample(picture, QUIET, 1.3, -5, "0.1 3")


def dots_told(picture):
    ends = ends_forward(picture.actions)
    if picture.dotted and ends:
        yield f"state {ends[0][1]:,}, which EndForward hands out", dot_sample(picture, 3.4, INK)
    if picture.dotted and any(isinstance(act, Reverse) for act in picture.actions):
        yield "a state that a reversal hands out", dot_sample(picture, 2.7, "none")


def images_told(picture, all_bars):
    for level in picture.levels:
        if any(bar.level == level for bar in all_bars):
            yield f"an image on {level}", bar_sample(picture, level)
    for words, frees in ("taken and kept", False), ("taken, and its slot is free", True):
        sources = [act.source for act in picture.actions if isinstance(act, Load) and act.frees == frees]
        if picture.dotted and sources:
            yield words, ring_sample(picture, min(sources, key=picture.levels.index), frees)


def draw_legend(picture, all_bars, low):
    """Draws what each kind of mark is, where it is drawn at all: in columns, each below the one before where it doesn't fit
    beside it. It gives the place of the lowest line."""
    columns = [list(told) for told in (strokes_told(picture), dots_told(picture), images_told(picture, all_bars))]
    x, y, beside, lowest = picture.left, low, picture.left, low
    for column in filter(None, columns):
        wide = 34 + LETTER * max(len(words) for words, _ in column)
        if beside + wide <= picture.left + picture.wide + RIGHT - 4:
            x, y = beside, low
        for words, draw in column:
            draw(x, y - 4)
            picture.label(x + 34, y, words)
            lowest, y = max(lowest, y), y + 22
        beside = x + wide + 20
    return lowest


def below(picture, all_bars, book):
    """The lines of the counts."""
    told = counts(picture.actions, picture.levels)
    steps = f"{many(told.forward, 'forward step', 'forward steps')}, {told.taped:,} of them to the tape, and {told.reversed:,} reversed"
    yield f"{many(len(picture.actions), 'action', 'actions')}: {steps}"
    slots = {level["name"]: level["slots"] for level in book["levels"]} if book else {}
    for level in picture.levels:
        of = "" if slots.get(level) is None else f" of {many(slots[level], 'slot', 'slots')}"
        images = f"{many(told.writes[level], 'image', 'images')} written, {told.reads[level]:,} read"
        yield f"{level}: {images}, at most {most_at_once(all_bars, level):,} at once{of}"
    if book:
        yield f"it costs {cost(told, book):,} by the book"


def svg(actions, levels, book, timed, title):
    title = "".join(letter if letter.isprintable() else " " for letter in title)
    times, all_bars = spans(actions, book if timed else None), bars(actions)
    picture = Picture(actions, levels, times, timed, title)
    draw_reversed(picture)
    draw_axes(picture)
    name_reversed(picture)
    draw_bars(picture, all_bars)
    draw_strokes(picture)
    if picture.dotted:
        draw_dots(picture)
    for place, line in enumerate(picture.title):
        picture.label(picture.left, 26 + 20 * place, line, 15, INK, "start", ' font-weight="bold"')
    low = draw_legend(picture, all_bars, picture.top + picture.high + 72) + 8
    for line in below(picture, all_bars, book):
        low += 20
        picture.label(picture.left, low, line)
    wide, high = round(picture.left + picture.wide + RIGHT), round(low + 18)
    head = f'<svg xmlns="http://www.w3.org/2000/svg" width="{wide}" height="{high}" viewBox="0 0 {wide} {high}" font-family="Helvetica, Arial, sans-serif">'
    ground = f'<rect width="{wide}" height="{high}" rx="6" fill="white"/>'
    return "\n".join([head, f"<title>{escape(title)}</title>", ground, *picture.text, "</svg>", ""])


def read_book(name):
    """The book of a file; what isn't looked at here may be wrong in it."""
    with open(name, encoding="utf-8") as file:
        book = json.load(file)
    wanted = {"name", "slots", "write", "read"}
    if not {"forward", "reverse"} <= set(book) or not all(wanted <= set(level) for level in book["levels"]):
        raise ValueError(f"{name} is no book")
    return book


def read_text(name):
    if name == "-":
        return sys.stdin.read()
    with open(name, encoding="utf-8", errors="replace") as file:
        return file.read()


def main(words):
    options = dict(word[2:].split("=", 1) for word in words if re.match("--(title|x)=", word))
    words = [word for word in words if not re.match("--(title|x)=", word)]
    timed = options.get("x", "actions") == "cost"
    if not 1 <= len(words) <= 2 or options.get("x", "actions") not in ("actions", "cost"):
        raise SystemExit(__doc__)
    if timed and len(words) == 1:
        raise SystemExit("draw.py: --x=cost wants a book")
    try:
        text = read_text(words[0])
        actions = schedule(text)
        book = read_book(words[1]) if len(words) == 2 else None
    except (OSError, ValueError, KeyError, TypeError) as wrong:
        raise SystemExit(f"draw.py: {wrong}")
    named = named_levels(actions)
    levels = [level["name"] for level in book["levels"]] if book else named
    if not set(named) <= set(levels):
        raise SystemExit(f"draw.py: the book has no level {sorted(set(named) - set(levels))[0]}")
    if timed and actions and cost(counts(actions, levels), book) == 0:
        raise SystemExit("draw.py: the schedule costs nothing by the book, so there is no time to draw")
    print(svg(actions, levels, book, timed, options.get("title") or told_title(text, actions, levels)), end="")


if __name__ == "__main__":
    main(sys.argv[1:])
