#!/usr/bin/env python3
"""Draws what `boardcase` prints as a picture (SVG).

    timeline.py [REPORT] [-o PICTURE] [--title TITLE]

REPORT is a file with what `boardcase` printed, or standard input; PICTURE is
a file, or standard output. There is a lane for each claimant, from left to
right a column for each do line. The hue is the session, the tone the place:
solid is inside, hatched is waiting. Each event carries its printed line as
data-line and as the tip that a browser shows.

Python's standard library only.
"""

import argparse
import re
import sys
from collections import namedtuple
from xml.sax.saxutils import escape, quoteattr

PLACES = [
    "rest", "sign", "raise", "scan", "take", "lower",
    "sees Choosing", "sees Session", "sees Token", "sees Session",
    "inside", "drops token", "clears session",
]
INSIDE = 10

REFUSALS = {
    1: "no table of so many claimants",
    2: "ceiling 0",
    4: "no such claimant",
    5: "ask for session 0",
    6: "ask, not at rest",
    7: "leave, not inside",
    8: "step at rest or inside",
    11: "text over 32,768 bytes",
    12: "a line breaks the layout",
    13: "more than 2,048 do lines",
}
TURNED_AWAY = 31
REFUSED = 32

# Hues that are told apart by most eyes; more sessions than hues share them.
HUES = ["#0072b2", "#d55e00", "#00875f", "#b3508b", "#6a51a3", "#8c6d1f", "#2b8cbe", "#a63603"]
UNSIGNED = "#6b7280"
INK = "#1f2937"
FAINT = "#6b7280"
RULE = "#e5e7eb"
ALARM = "#b91c1c"
FONT = "ui-sans-serif, 'Helvetica Neue', Helvetica, Arial, 'DejaVu Sans', sans-serif"

Event = namedtuple("Event", "line at who place session raised token answer")
Wait = namedtuple("Wait", "who row start end")

EVENT = re.compile(
    r"at=(\d+) who=(\d+) place=(\d+) session=(\d+) raised=(\d+) token=(\d+) answer=(\d+)"
)


class BadReport(Exception):
    """What was given is not what `boardcase` prints."""


def parse(text):
    """The events of a report, and its last line."""
    lines = text.split("\n")
    if lines[-1] != "":
        raise BadReport("the last line has no end")
    lines = lines[:-1]
    if not lines:
        raise BadReport("there is no line")
    events = []
    for number, line in enumerate(lines[:-1], 1):
        match = EVENT.fullmatch(line)
        if match is None:
            raise BadReport(f"line {number} is no line of a report: {line!r}")
        event = Event(line, *map(int, match.groups()))
        if event.at != number or event.place >= len(PLACES):
            raise BadReport(f"line {number} can't stand there: {line!r}")
        events.append(event)
    last = lines[-1]
    refused = re.fullmatch(r"refused=(\d+) line=(\d+)", last)
    if last != f"end={len(events)}" and (refused is None or events):
        raise BadReport(f"the last line is neither end={len(events)} nor a refusal: {last!r}")
    return events, last


def waits(events):
    """Who was kept waiting by which row, from which do line to which.

    The row that a waiting claimant looks at is not printed, but follows: it is
    row 1 after place 5, and the next one each time 8 or 9 leads to 6.
    """
    found = []
    last = {}
    row = {}
    kept = {}  # the wait that is going on: its row and its first line

    def end(who, at):
        if who in kept:
            found.append(Wait(who, *kept.pop(who), at))

    for event in events:
        before = last.get(event.who)
        if event.answer >= REFUSED:
            continue
        last[event.who] = event
        if before is None:
            continue
        step = (before.place, event.place)
        if step == (5, 6):
            row[event.who] = 1
        elif step in ((8, 6), (9, 6), (8, INSIDE), (9, INSIDE)):
            end(event.who, event.at)
            row[event.who] = row.get(event.who, 0) + 1
        elif step in ((7, 6), (9, 8)) and event.who not in kept:
            kept[event.who] = (row.get(event.who, 0), before.at)
    for who in list(kept):
        end(who, len(events) + 1)
    return sorted(found, key=lambda wait: (wait.start, wait.who))


def insides(events):
    """Who is inside from which do line to which, as (start, end, {who: session})."""
    found = []
    now = {}
    start = 1
    for event in events + [None]:
        after = dict(now)
        if event is not None and event.answer != REFUSED + 4:
            if event.place == INSIDE:
                after[event.who] = event.session
            else:
                after.pop(event.who, None)
        at = len(events) + 1 if event is None else event.at
        if event is None or after != now:
            if now:
                found.append((start, at, now))
            now, start = after, at
    return found


class Picture:
    """Collects the parts of an SVG."""

    def __init__(self):
        self.parts = []

    def add(self, part):
        self.parts.append(part)

    def text(self, x, y, words, size=12, fill=INK, anchor="start", weight="normal", more=""):
        self.add(
            f'<text x="{x:g}" y="{y:g}" font-size="{size:g}" fill="{fill}" '
            f'text-anchor="{anchor}" font-weight="{weight}"{more}>{escape(words)}</text>'
        )

    def rect(self, x, y, width, height, more):
        self.add(f'<rect x="{x:g}" y="{y:g}" width="{width:g}" height="{height:g}" {more}/>')

    def line(self, x1, y1, x2, y2, stroke, more=""):
        self.add(
            f'<line x1="{x1:g}" y1="{y1:g}" x2="{x2:g}" y2="{y2:g}" stroke="{stroke}" {more}/>'
        )

    def open_group(self, name, line):
        """A group that stands for a printed line."""
        self.add(f"<g class={quoteattr(name)} data-line={quoteattr(line)}><title>{escape(line)}</title>")

    def close_group(self):
        self.add("</g>")


def hue_of(session, sessions):
    return UNSIGNED if session == 0 else HUES[sessions.index(session) % len(HUES)]


def tone(place, session, sessions):
    """How a bar looks: height in parts of a lane's, and its fill and border."""
    hue = hue_of(session, sessions)
    if place == 0:
        return 0, ""
    if place <= 5:
        return 0.62, f'fill="{hue}" fill-opacity="{0.08 + 0.07 * place:.2f}"'
    if place <= 9:
        dense = "dense" if place >= 8 else "light"
        key = "x" if session == 0 else sessions.index(session) % len(HUES)
        return 0.82, f'fill="url(#{dense}-{key})" stroke="{hue}" stroke-width="1"'
    if place == INSIDE:
        return 1, f'fill="{hue}"'
    return 0.4, f'fill="{hue}" fill-opacity="{0.34 if place == 11 else 0.18}"'


def patterns(picture, sessions):
    """A light and a dense hatching for each hue in use."""
    keys = {index % len(HUES): HUES[index % len(HUES)] for index in range(len(sessions))}
    keys["x"] = UNSIGNED
    picture.add("<defs>")
    for key, hue in keys.items():
        for name, gap, width in (("light", 8, 2), ("dense", 5, 2)):
            picture.add(
                f'<pattern id="{name}-{key}" width="{gap}" height="{gap}" '
                f'patternUnits="userSpaceOnUse" patternTransform="rotate(45)">'
                f'<rect width="{gap}" height="{gap}" fill="#ffffff"/>'
                f'<rect width="{gap}" height="{gap}" fill="{hue}" fill-opacity="0.12"/>'
                f'<rect width="{width}" height="{gap}" fill="{hue}" fill-opacity="0.6"/></pattern>'
            )
    picture.add(
        '<marker id="tip" viewBox="0 0 8 8" refX="7" refY="4" markerWidth="7" markerHeight="7" '
        f'orient="auto"><path d="M0 0.5 L8 4 L0 7.5 Z" fill="{INK}"/></marker>'
    )
    picture.add("</defs>")


class Layout:
    """Where things are."""

    LEFT = 112
    RIGHT = 96
    BAR = 30  # a lane's bar, with room above it for waits and below for holdings
    ABOVE = 28
    BELOW = 16
    GAP = 8

    def __init__(self, events, last, title):
        self.count = len(events)
        self.last = last
        self.column = max(4.0, min(26.0, 1500 / max(self.count, 1)))
        self.lanes = sorted({event.who for event in events})
        self.title_height = 40 if title else 14
        self.axis = self.title_height + 20
        self.inside_top = self.axis + 12
        self.lanes_top = self.inside_top + 24 + 26
        self.lane_height = self.ABOVE + self.BAR + self.BELOW + self.GAP
        self.right = self.LEFT + self.count * self.column
        self.bottom = self.lanes_top + len(self.lanes) * self.lane_height
        self.width = max(self.right + self.RIGHT, 980)

    def x(self, at):
        """The left side of the column of do line `at`."""
        return self.LEFT + (at - 1) * self.column

    def middle(self, who):
        """The height at which a claimant's bar has its middle."""
        return self.lanes_top + self.lanes.index(who) * self.lane_height + self.ABOVE + self.BAR / 2


def fits(words, width, size):
    return len(words) * size * 0.56 <= width


def draw_axis(picture, layout):
    """The numbers of the do lines, and light lines down from them."""
    steps = [1, 2, 5, 10, 20, 50, 100, 200, 500]
    step = next(s for s in steps if s * layout.column >= 30)
    picture.text(layout.LEFT - 12, layout.axis, "do line", 11, FAINT, "end")
    for at in range(1, layout.count + 1):
        if at % step == 0 or (at == 1 and step > 2):
            x = layout.x(at) + layout.column / 2
            picture.text(x, layout.axis, str(at), 11, FAINT, "middle")
            picture.line(x, layout.axis + 6, x, layout.bottom, RULE, 'stroke-width="1"')


def draw_inside(picture, layout, events, sessions):
    """The strip on top: who is inside, and under which session."""
    top, height = layout.inside_top, 24
    picture.text(layout.LEFT - 12, top + 17, "inside", 13, INK, "end", "bold")
    picture.rect(layout.LEFT, top, layout.right - layout.LEFT, height, 'fill="#f3f4f6" rx="4"')
    for start, end, who in insides(events):
        x, width = layout.x(start), layout.x(end) - layout.x(start)
        both = len(set(who.values())) > 1
        hue = ALARM if both else hue_of(next(iter(who.values())), sessions)
        names = " ".join(map(str, sorted(who)))
        picture.add(f'<g class="inside" data-from="{start}" data-to="{end}" data-who="{names}">')
        picture.rect(x, top, width, height, f'fill="{hue}" stroke="#ffffff" stroke-width="1" rx="3"')
        numbers = ", ".join(map(str, sorted(who)))
        for words in (f"{numbers} (session {next(iter(who.values()))})", numbers):
            if fits(words, width - 6, 12):
                picture.text(x + width / 2, top + 17, words, 12, "#ffffff", "middle", "bold")
                break
        picture.add("</g>")


def draw_lane(picture, layout, who, events, sessions):
    """A claimant's own line: its bars, event by event, and what it holds."""
    middle = layout.middle(who)
    mine = [event for event in events if event.who == who]
    nobody = all(event.answer == REFUSED + 4 for event in mine)
    picture.text(layout.LEFT - 12, middle + 5, f"claimant {who}", 13, INK, "end", "bold")
    if nobody:
        picture.text(layout.LEFT - 12, middle + 19, "no such claimant", 10, ALARM, "end")
    picture.line(layout.LEFT, middle, layout.right, middle, "#d1d5db", 'stroke-width="1.5"')
    ends = [layout.x(event.at) for event in mine[1:]] + [layout.right]
    for event, end in zip(mine, ends):
        draw_event(picture, layout, event, end, middle, sessions)
    draw_holdings(picture, layout, mine, middle, sessions)


def draw_event(picture, layout, event, end, middle, sessions):
    """What a do line did, from its column up to this claimant's next one."""
    x = layout.x(event.at)
    centre = x + layout.column / 2
    height, look = tone(event.place, event.session, sessions)
    height *= layout.BAR
    kind = "refused" if event.answer >= REFUSED else f"place-{event.place}"
    picture.open_group(f"event {kind}", event.line)
    # The whole column takes the tip, even where nothing is drawn.
    picture.rect(x, middle - layout.BAR / 2, layout.column, layout.BAR, 'fill="#ffffff" fill-opacity="0"')
    if height:
        picture.rect(x, middle - height / 2, end - x, height, 'fill="#ffffff"')
        picture.rect(x, middle - height / 2, end - x, height, look)
    if event.answer >= REFUSED:
        draw_refused(picture, layout, event, centre, middle)
    elif event.answer == TURNED_AWAY:
        size = min(8, layout.column / 2 + 2)
        picture.add(
            f'<path d="M{centre:g} {middle - size:g} l{size:g} {size:g} l{-size:g} {size:g} '
            f'l{-size:g} {-size:g} Z" fill="{ALARM}" stroke="#ffffff" stroke-width="1"/>'
        )
    elif layout.column >= 13:
        solid = event.place == INSIDE
        more = "" if solid else ' stroke="#ffffff" stroke-width="3" paint-order="stroke" stroke-linejoin="round"'
        fill = "#ffffff" if solid else FAINT if event.place == 0 else INK
        size = 12 if event.place < 10 else 10.5
        weight = "bold" if solid else "normal"
        picture.text(centre, middle + 4, str(event.place), size, fill, "middle", weight, more)
        if solid and end - x > 120:
            picture.text((x + end) / 2, middle + 5, "inside", 13, fill, "middle", weight)
    picture.close_group()


def draw_refused(picture, layout, event, centre, middle):
    arm = min(5, layout.column / 2)
    for stroke, width in (("#ffffff", 5), (ALARM, 2.2)):
        picture.add(
            f'<path d="M{centre - arm:g} {middle - arm:g} l{2 * arm:g} {2 * arm:g} '
            f'm0 {-2 * arm:g} l{-2 * arm:g} {2 * arm:g}" stroke="{stroke}" stroke-width="{width}" '
            'fill="none" stroke-linecap="round"/>'
        )
    if layout.column >= 9:
        halo = ' stroke="#ffffff" stroke-width="4" paint-order="stroke"'
        number = str(event.answer - REFUSED)
        picture.text(centre, middle - layout.BAR / 2 - 1, number, 10, ALARM, "middle", "bold", halo)


def draw_holdings(picture, layout, mine, middle, sessions):
    """Below the bar: the session and the token, for as long as they are held."""
    spans = []
    for event in mine:
        held = (event.session, event.token)
        if not spans or spans[-1][1] != held:
            spans.append([event.at, held])
    ends = [start for start, _ in spans[1:]] + [layout.count + 1]
    y = middle + layout.BAR / 2 + 12
    for (start, (session, token)), end in zip(spans, ends):
        if session == 0:
            continue
        hue = hue_of(session, sessions)
        x, width = layout.x(start), layout.x(end) - layout.x(start)
        picture.line(x + 1, y - 10, x + width - 1, y - 10, hue, 'stroke-width="2.5"')
        long = f"session {session}" + (f", token {token}" if token else "")
        short = f"{session}:{token}" if token else f"{session}"
        for words in (long, short):
            if fits(words, width, 10.5):
                picture.text(x + 1, y + 2, words, 10.5, hue, "start", "bold" if token else "normal")
                break


def draw_waits(picture, layout, events):
    """Who waits for whom: a line over the waiting bar and an arrow to the row."""
    for wait in waits(events):
        y = layout.middle(wait.who) - layout.BAR / 2 - 12
        x1, x2 = layout.x(wait.start), layout.x(wait.end)
        picture.add(f'<g class="wait" data-who="{wait.who}" data-row="{wait.row}">')
        picture.line(x1 + 2, y, x2 - 2, y, INK, 'stroke-width="1.2" stroke-dasharray="4 2"')
        for words in (f"waits for {wait.row}", f"for {wait.row}", f"{wait.row}"):
            if fits(words, x2 - x1 - 4, 11):
                picture.text(x1 + 9, y - 3, words, 11, INK, "start", "bold")
                break
        if wait.row in layout.lanes and wait.row != wait.who:
            target = layout.middle(wait.row)
            up = target < y
            end = target + (layout.BAR / 2 + 1 if up else -layout.BAR / 2 - 1)
            picture.line(
                x1 + 3, y, x1 + 3, end, INK, 'stroke-width="1.2" stroke-dasharray="4 2" marker-end="url(#tip)"'
            )
        picture.add("</g>")


def draw_end(picture, layout, last):
    x = layout.right + 10
    picture.open_group("end", last)
    picture.line(layout.right, layout.inside_top, layout.right, layout.bottom, FAINT, 'stroke-width="1"')
    picture.text(x, layout.inside_top + 17, last, 12, FAINT)
    picture.close_group()


def draw_legend(picture, layout, events, sessions):
    """What the tones, hues and marks mean; the height at which it ends."""
    y = layout.bottom + 18
    picture.line(24, y - 6, layout.width - 24, y - 6, RULE, 'stroke-width="1"')
    y += 18
    picture.text(24, y, "Places", 12, INK, "start", "bold")
    hue_session = sessions[0] if sessions else 0
    x = 100
    for place, name in enumerate(PLACES):
        words = f"{place} {name}"
        width = 34 + len(words) * 6.6
        if x + width > layout.width - 24:
            x, y = 100, y + 24
        # At 1 nothing is signed yet, so the bar has no session's hue.
        height, look = tone(place, 0 if place == 1 else hue_session, sessions)
        if height:
            picture.rect(x, y - 4 - height * 9, 20, height * 18, look)
        else:
            picture.line(x, y - 4, x + 20, y - 4, "#9ca3af", 'stroke-width="1.5"')
        picture.text(x + 26, y, words, 12)
        x += width + 8
    y += 28
    picture.text(24, y, "Sessions", 12, INK, "start", "bold")
    x = 100
    for session in sessions:
        words = f"session {session}"
        width = 34 + len(words) * 6.6
        if x + width > layout.width - 24:
            x, y = 100, y + 24
        picture.rect(x, y - 13, 20, 18, f'fill="{hue_of(session, sessions)}" rx="2"')
        picture.text(x + 26, y, words, 12)
        x += width + 8
    if not sessions:
        picture.text(x, y, "none signed", 12, FAINT)
    y += 28
    return draw_marks(picture, layout, events, y) + 20


def draw_marks(picture, layout, events, y):
    picture.text(24, y, "Marks", 12, INK, "start", "bold")
    x = 100
    picture.line(x, y - 4, x + 20, y - 4, INK, 'stroke-width="1.2" stroke-dasharray="4 2" marker-end="url(#tip)"')
    picture.text(x + 26, y, "waits for that claimant", 12)
    x += 190
    picture.add(f'<path d="M{x + 8} {y - 12} l8 8 l-8 8 l-8 -8 Z" fill="{ALARM}"/>')
    picture.text(x + 26, y, "turned away at the ceiling", 12)
    x += 206
    picture.add(
        f'<path d="M{x + 3} {y - 9} l10 10 m0 -10 l-10 10" stroke="{ALARM}" stroke-width="2.2" stroke-linecap="round"/>'
    )
    numbers = sorted({event.answer - REFUSED for event in events if event.answer >= REFUSED})
    words = "refused, with its number" + (": " if numbers else "")
    words += "; ".join(f"{number} {REFUSALS.get(number, '')}".strip() for number in numbers)
    picture.text(x + 26, y, words, 12)
    return y


def draw_refusal(picture, last):
    """A text or an opening that was refused as a whole."""
    number, line = map(int, re.fullmatch(r"refused=(\d+) line=(\d+)", last).groups())
    picture.open_group("refused-text", last)
    picture.rect(24, 60, 520, 96, f'fill="#fef2f2" stroke="{ALARM}" stroke-width="1.5" rx="8"')
    picture.text(48, 96, last, 20, ALARM, "start", "bold")
    where = f", at line {line}" if line else ""
    picture.text(48, 128, f"The case was refused: {REFUSALS.get(number, 'unknown')}{where}.", 14)
    picture.close_group()


def draw(text, title=None):
    """The SVG of a report."""
    events, last = parse(text)
    picture = Picture()
    if last.startswith("refused="):
        width, height = 568, 180
        draw_refusal(picture, last)
    else:
        sessions = sorted({event.session for event in events} - {0})
        layout = Layout(events, last, title)
        patterns(picture, sessions)
        draw_axis(picture, layout)
        draw_inside(picture, layout, events, sessions)
        for who in layout.lanes:
            draw_lane(picture, layout, who, events, sessions)
        draw_waits(picture, layout, events)
        draw_end(picture, layout, last)
        height = draw_legend(picture, layout, events, sessions)
        width = layout.width
    if title:
        picture.text(24, 28, title, 18, INK, "start", "bold")
    head = (
        f'<svg xmlns="http://www.w3.org/2000/svg" width="{width:g}" height="{height:g}" '
        f'viewBox="0 0 {width:g} {height:g}" font-family={quoteattr(FONT)} role="img">'
        f"<title>{escape(title or 'What boardcase printed')}</title>"
        f'<rect width="{width:g}" height="{height:g}" fill="#ffffff"/>'
    )
    return "\n".join([head, *picture.parts, "</svg>"]) + "\n"


def main():
    arguments = argparse.ArgumentParser(description="Draws what boardcase prints as an SVG.")
    arguments.add_argument("report", nargs="?", help="what boardcase printed (standard input)")
    arguments.add_argument("-o", "--output", help="the picture to write (standard output)")
    arguments.add_argument("--title", help="a line over the picture")
    given = arguments.parse_args()
    if given.report:
        with open(given.report, encoding="ascii") as file:
            text = file.read()
    else:
        text = sys.stdin.read()
    try:
        picture = draw(text, given.title)
    except BadReport as error:
        sys.exit(f"timeline.py: {error}")
    if given.output:
        with open(given.output, "w", encoding="utf-8") as file:
            file.write(picture)
    else:
        sys.stdout.write(picture)


if __name__ == "__main__":
    main()
