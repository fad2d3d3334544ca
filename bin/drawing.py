"""Draws a played script, as text for a terminal and as a picture."""
from html import escape

import tracing

# The phases of keys: a sign in a terminal, a colour in a picture, and what it says.
PHASES = {
    "readable": ("=", "#7fbf7b", "readable"),
    "absent": (".", "#e0e0e0", "not the server's"),
    "waits": ("w", "#f6e3a1", "assigned, waits to be fetched"),
    "to fetch": ("o", "#fbc58a", "to be fetched"),
    "fetched": ("+", "#f19e5a", "fetched"),
    "taken": ("*", "#c98bb9", "taken by the commit"),
    "in base": ("#", "#9a8fc4", "fetched and durable"),
    "sent": ("~", "#8ab8dc", "whole, readable once durable"),
}
KINDS = {
    "waits": ("...", "#a07800", "waits"),
    "answered": ("", "#1b7837", "answered"),
    "refused": ("!", "#c0392b", "refused"),
    "stopped": ("x", "#777777", "stopped by a fault or a kill"),
}
VERSIONS = ("oldest", "durable", "newest")
MOST = 36


class Table:
    """What is drawn of one life: a row for each event and each further poll at its place."""

    def __init__(self, script, life, states, plan):
        self.life = life
        self.states = states
        self.ends = tracing.borders(states)
        self.polls = tracing.polls(plan, life)
        self.readers = sorted(reader for reader in self.polls if reader) + ([0] if 0 in self.polls else [])
        self.rows = []
        for place, state in enumerate(states, 1):
            at_place = {reader: [poll for poll in self.polls[reader] if poll.place == place] for reader in self.readers}
            for line in range(max([1] + [len(made) for made in at_place.values()])):
                cells = [made[line] if line < len(made) else None for made in (at_place[reader] for reader in self.readers)]
                self.rows.append((place if line == 0 else None, state, cells))

    def event(self, place):
        return " ".join(self.life.events[place - 1])

    def phases(self, state):
        """The phase of the keys from each border to the next."""
        return [tracing.phase_at(state, begin) for begin in self.ends[:-1]]

    def labels(self):
        return [cut(tracing.word(end), 8) for end in self.ends]

    def seen(self):
        """The phases that some state has, in their order."""
        there = {phase for state in self.states for phase in self.phases(state)}
        return [phase for phase in PHASES if phase in there]

    def kinds(self):
        there = {poll.kind() for made in self.polls.values() for poll in made}
        return [kind for kind in KINDS if kind in there]


def cut(text, most=MOST):
    return text if len(text) <= most else text[: most - 2] + ".."


def name_of(reader):
    return f"reader {reader}" if reader else "at the end"


def tables(script, transcript):
    """A table for each life that was begun."""
    found, before = [], None
    for life, plan in zip(transcript.lives, script.plans):
        states = tracing.states(script, life, before)
        before = states[-1]
        found.append(Table(script, life, states, plan))
    return found


def heading(life):
    return f"life {life.number}, opened at version {life.opened}, {life.ending or 'cut short'}"


def requests_of(plan):
    """What each request asks, for the foot of a drawing."""
    return [f"{request.number}  {name_of(request.reader)}: {request.text()}" for request in plan.requests]


# In a terminal


# The colours of a terminal for each kind of poll.
PAINTS = {"waits": "33", "answered": "32", "refused": "31", "stopped": "90"}


def padded(cells, widths):
    return "  ".join(cell.ljust(width) for cell, width in zip(cells, widths)).rstrip()


def painted(cell, poll):
    """A cell with a poll, in the colour of its kind."""
    text = cell.rstrip()
    return f"\033[{PAINTS[poll.kind()]}m{text}\033[0m{cell[len(text):]}" if poll else cell


def poll_text(poll):
    if poll is None:
        return ""
    sign = KINDS[poll.kind()][0]
    return cut(f"{poll.request.number} {sign} {poll.result}".replace("  ", " ").strip())


def keys_header(table):
    return "".join(label.ljust(max(len(label) + 1, 5)) for label in table.labels()[:-1]) + table.labels()[-1]


def keys_row(table, state):
    signs = [PHASES[phase][0] for phase in table.phases(state)]
    return "".join("|" + sign * (max(len(label) + 1, 5) - 1) for sign, label in zip(signs, table.labels())) + "|"


def life_text(table, is_painted):
    header = ["place", "event", *VERSIONS, keys_header(table), *(name_of(reader) for reader in table.readers)]
    rows = []
    for place, state, polls in table.rows:
        told = ["", "", "", "", "", ""]
        if place is not None:
            versions = [str(getattr(state, version)) for version in VERSIONS]
            told = [str(place).rjust(5), cut(table.event(place)), *versions, keys_row(table, state)]
        rows.append(told + [poll_text(poll) for poll in polls])
    widths = [max(len(row[column]) for row in [header, *rows]) for column in range(len(header))]
    if is_painted:
        first = len(header) - len(table.readers)
        for row, (_, _, polls) in zip(rows, table.rows):
            row[first:] = [painted(cell.ljust(width), poll) for cell, width, poll in zip(row[first:], widths[first:], polls)]
    return [heading(table.life), "", padded(header, widths), *(padded(row, widths) for row in rows)]


def legend_text(all_tables):
    phases = [phase for phase in PHASES if any(phase in table.seen() for table in all_tables)]
    kinds = [kind for kind in KINDS if any(kind in table.kinds() for table in all_tables) and KINDS[kind][0]]
    told = [("keys", *PHASES[phase]) for phase in phases] + [("polls", *KINDS[kind]) for kind in kinds]
    return [f"{of}: {sign} {text}" for of, sign, _, text in told] + [""]


def as_text(script, transcript, is_painted=False):
    """The drawing as lines of text, with the colours of a terminal or without."""
    lines, all_tables = [], tables(script, transcript)
    for table, plan in zip(all_tables, script.plans):
        lines += life_text(table, is_painted) + [""] + requests_of(plan) + [""]
    lines += legend_text(all_tables)
    return lines + [line for line in (transcript.fault, transcript.end) if line]


# As a picture

LETTER, LINE, GAP = 7.3, 24, 18


class Picture:
    """A picture in the making: its elements, and how large it has become."""

    def __init__(self):
        self.elements = []
        self.width = 0
        self.height = 0

    def reach(self, x, y):
        self.width = max(self.width, x)
        self.height = max(self.height, y)

    def text(self, x, y, text, fill="#222222", weight="normal"):
        self.elements.append(f'<text x="{x:g}" y="{y:g}" fill="{fill}" font-weight="{weight}">{escape(text)}</text>')
        self.reach(x + len(text) * LETTER, y)

    def box(self, x, y, width, height, fill):
        self.elements.append(f'<rect x="{x:g}" y="{y:g}" width="{width:g}" height="{height:g}" fill="{fill}" stroke="#888888"/>')
        self.reach(x + width, y + height)

    def line(self, x, y, to_y, stroke):
        self.elements.append(f'<line x1="{x:g}" y1="{y:g}" x2="{x:g}" y2="{to_y:g}" stroke="{stroke}" stroke-width="2"/>')

    def rule(self, y, width):
        self.elements.append(f'<line x1="{GAP}" y1="{y:g}" x2="{width:g}" y2="{y:g}" stroke="#eeeeee"/>')

    def dot(self, x, y, kind):
        colour = KINDS[kind][1]
        fill = "#ffffff" if kind == "waits" else colour
        self.elements.append(f'<circle cx="{x:g}" cy="{y:g}" r="5" fill="{fill}" stroke="{colour}" stroke-width="2"/>')
        self.reach(x + 6, y + 6)

    def svg(self, title):
        width, height = round(self.width + GAP), round(self.height + GAP)
        return "\n".join(
            [
                f'<svg xmlns="http://www.w3.org/2000/svg" width="{width}" height="{height}" viewBox="0 0 {width} {height}" '
                'font-family="DejaVu Sans Mono, Menlo, Consolas, monospace" font-size="12">',
                f"<title>{escape(title)}</title>",
                f'<rect width="{width}" height="{height}" fill="#ffffff"/>',
                *self.elements,
                "</svg>",
                "",
            ]
        )


def columns(table):
    """Where each column of a life begins, and how wide the keys between two borders are."""
    span = max([len(label) for label in table.labels()] + [4]) * LETTER + 10
    event = max([len(cut(table.event(place))) for place in range(1, len(table.states) + 1)] + [5]) * LETTER
    places = {"place": GAP, "event": GAP + 50}
    x = places["event"] + event + GAP
    for version in VERSIONS:
        most = max(len(str(getattr(state, version))) for state in table.states)
        places[version] = x
        x += max(most, len(version)) * LETTER + GAP
    places["keys"] = x
    x += span * (len(table.ends) - 1) + GAP * 2
    for reader, made in ((reader, table.polls[reader]) for reader in table.readers):
        places[reader] = x
        x += max([len(cut(poll.text())) for poll in made] + [len(name_of(reader))]) * LETTER + 16 + GAP
    return places, span, x - GAP


def draw_row(picture, table, places, span, y, row):
    place, state, polls = row
    if place is not None:
        picture.text(places["place"], y, str(place), "#777777")
        picture.text(places["event"], y, cut(table.event(place)))
        for version in VERSIONS:
            picture.text(places[version], y, str(getattr(state, version)))
        for at, phase in enumerate(table.phases(state)):
            picture.box(places["keys"] + at * span, y - 13, span, 17, PHASES[phase][1])
    for reader, poll in zip(table.readers, polls):
        if poll is not None:
            picture.dot(places[reader] + 5, y - 4, poll.kind())
            picture.text(places[reader] + 16, y, cut(poll.text()), KINDS[poll.kind()][1])


def draw_waits(picture, table, places, ys):
    """Lines from the first poll of a request to its last."""
    for reader in table.readers:
        first = {}
        for y, (_, _, polls) in zip(ys, table.rows):
            poll = polls[table.readers.index(reader)]
            if poll is None:
                continue
            if poll.kind() != "waits" and poll.request.number in first:
                picture.line(places[reader] + 5, first[poll.request.number] - 4, y - 4, KINDS["waits"][1])
            first.setdefault(poll.request.number, y)


def draw_life(picture, table, plan, y):
    """Draws a life, and answers where it ends."""
    places, span, width = columns(table)
    picture.text(GAP, y, heading(table.life), weight="bold")
    y += LINE
    for column in ("place", "event", *VERSIONS):
        picture.text(places[column], y, column, "#777777")
    for at, label in enumerate(table.labels()):
        picture.text(places["keys"] + at * span - (0 if at == 0 else len(label) * LETTER / 2), y, label, "#777777")
    for reader in table.readers:
        picture.text(places[reader], y, name_of(reader), weight="bold")
    ys = [y + LINE * (at + 1) for at in range(len(table.rows))]
    for row_y, row in zip(ys, table.rows):
        if row[0] is not None:
            picture.rule(row_y - 17, width)
    draw_waits(picture, table, places, ys)
    for row_y, row in zip(ys, table.rows):
        draw_row(picture, table, places, span, row_y, row)
    y = ys[-1] + LINE + 8
    for line in requests_of(plan):
        picture.text(GAP, y, line, "#555555")
        y += 17
    return y + LINE


def draw_legend(picture, all_tables, y):
    """Draws what the colours say, and answers where that ends."""
    phases = [phase for phase in PHASES if any(phase in table.seen() for table in all_tables)]
    kinds = [kind for kind in KINDS if any(kind in table.kinds() for table in all_tables)]
    x, right = GAP, max(picture.width, 640)
    for of, name, text in [(PHASES, phase, PHASES[phase][2]) for phase in phases] + [(KINDS, kind, KINDS[kind][2]) for kind in kinds]:
        if x > GAP and x + 20 + len(text) * LETTER > right:
            x, y = GAP, y + LINE
        if of is PHASES:
            picture.box(x, y - 11, 14, 14, PHASES[name][1])
        else:
            picture.dot(x + 7, y - 4, name)
        picture.text(x + 20, y, text, "#555555")
        x += 20 + len(text) * LETTER + GAP
    return y


def as_svg(title, script, transcript):
    """The drawing as a picture."""
    picture, all_tables, y = Picture(), tables(script, transcript), GAP + 10
    picture.text(GAP, y, title, weight="bold")
    y += LINE * 1.5
    for table, plan in zip(all_tables, script.plans):
        y = draw_life(picture, table, plan, y)
    y = draw_legend(picture, all_tables, y)
    for line in (transcript.fault, transcript.end):
        if line:
            y += LINE
            picture.text(GAP, y, line)
    return picture.svg(title)
