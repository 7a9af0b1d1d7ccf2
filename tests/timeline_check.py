#!/usr/bin/env python3
"""Checks the pictures that tools/timeline.py draws.

    timeline_check.py REPORT...      draws each report and checks its picture
    timeline_check.py --self-test    that bad pictures and bad reports are found

A picture is right if each printed line is in it exactly once, as data-line and
as the tip, in the lane of its claimant and the column of its number, drawn as
its place; if the strip on top says who is inside; and if waits are where the
places say. What is expected is worked out here anew.
"""

import pathlib
import re
import subprocess
import sys
import xml.etree.ElementTree as ElementTree

HERE = pathlib.Path(__file__).resolve().parent
TIMELINE = HERE.parent / "tools" / "timeline.py"
SVG = "{http://www.w3.org/2000/svg}"

FIELDS = ["at", "who", "place", "session", "raised", "token", "answer"]

# Situation P7 of document 01, as printed: 2 waits for 1, and 3 waits for 2.
SAMPLE_CASE = (
    [("ask", 1, 7)] + [("step", 1)] * 14
    + [("ask", 2, 8)] + [("step", 2)] * 11
    + [("ask", 3, 7)] + [("step", 3)] * 16
    + [("leave", 2), ("leave", 1), ("step", 4)]
)


def draw(report):
    """Runs timeline.py on a report; its exit code and what it wrote."""
    done = subprocess.run(
        [sys.executable, str(TIMELINE), "--title", "A <case> & its \"lines\""],
        input=report, capture_output=True, text=True, check=False,
    )
    return done.returncode, done.stdout


def fields(line):
    """The numbers of an event's line, or none for another line."""
    words = [word.partition("=") for word in line.split(" ")]
    if [name for name, _, _ in words] != FIELDS:
        return None
    return {name: int(value) for name, _, value in words}


def insides_of(events):
    """(from, to, who) for each stretch with the same claimants inside."""
    stretches, now, start = [], frozenset(), 1
    for event in events:
        after = now - {event["who"]}
        if event["place"] == 10:
            after |= {event["who"]}
        if after != now:
            if now:
                stretches.append((start, event["at"], now))
            now, start = after, event["at"]
    if now:
        stretches.append((start, len(events) + 1, now))
    return stretches


def problems(report, svg):
    """All that is wrong with the picture of a report."""
    try:
        root = ElementTree.fromstring(svg)
    except ElementTree.ParseError as error:
        return [f"it is no XML: {error}"]
    found = []
    if root.tag != SVG + "svg":
        found.append("it is no SVG")
    groups = [group for group in root.iter() if "data-line" in group.attrib]
    printed = report.splitlines()
    shown = [group.get("data-line") for group in groups]
    for line in printed:
        if shown.count(line) != 1:
            found.append(f"{line!r} is in it {shown.count(line)} times")
    for line in shown:
        if line not in printed:
            found.append(f"{line!r} was never printed")
    for group in groups:
        tip = group.find(SVG + "title")
        if tip is None or tip.text != group.get("data-line"):
            found.append(f"{group.get('data-line')!r} has another tip")
    events = [(fields(group.get("data-line")), group) for group in groups]
    events = [(event, group) for event, group in events if event is not None]
    events.sort(key=lambda pair: pair[0]["at"])
    found += misplaced(events)
    found += misdrawn(events)
    strips = [
        (int(g.get("data-from")), int(g.get("data-to")), frozenset(map(int, g.get("data-who").split())))
        for g in root.iter(SVG + "g") if g.get("class") == "inside"
    ]
    if strips != insides_of([event for event, _ in events]):
        found.append("the strip on top has others inside")
    if re.search(r"[^\x09\x0a\x20-\x7e]", svg):
        found.append("it has odd characters")
    return found


def misplaced(events):
    """Events whose column or lane is not theirs."""
    found, lanes, last = [], {}, None
    for event, group in events:
        box = group.find(SVG + "rect")
        x, y = float(box.get("x")), float(box.get("y"))
        if last is not None and x <= last:
            found.append(f"do line {event['at']} is not right of the one before")
        last = x
        if lanes.setdefault(event["who"], y) != y:
            found.append(f"do line {event['at']} is not in the lane of {event['who']}")
    if len(set(lanes.values())) != len(lanes):
        found.append("two claimants share a lane")
    ordered = [lanes[who] for who in sorted(lanes)]
    if ordered != sorted(ordered):
        found.append("the lanes are out of order")
    return found


def misdrawn(events):
    """Events that are not drawn as what they are."""
    found, solid = [], {}
    for event, group in events:
        kind = "refused" if event["answer"] >= 32 else f"place-{event['place']}"
        if group.get("class") != f"event {kind}":
            found.append(f"do line {event['at']} is drawn as {group.get('class')}")
        bars = group.findall(SVG + "rect")[1:]
        if bool(bars) != (event["place"] != 0):
            found.append(f"do line {event['at']} has a bar at rest, or none elsewhere")
        if event["place"] == 10:
            solid.setdefault(event["session"], set()).add(bars[-1].get("fill"))
    hues = [hue for used in solid.values() for hue in used]
    if any(len(used) != 1 for used in solid.values()):
        found.append("a session has two hues")
    if len(solid) <= 8 and len(set(hues)) != len(hues):
        found.append("two sessions share a hue")
    return found


def check(report, name):
    """Draws and checks a report; whether all is well."""
    code, svg = draw(report)
    wrong = problems(report, svg) if code == 0 else [f"timeline.py ended with {code}"]
    for problem in wrong:
        print(f"{name}: {problem}")
    return not wrong


def sample():
    """A report for the self-test, by a small walk of its own."""
    rows = {who: {"place": 0, "session": 0, "raised": 0, "token": 0} for who in (1, 2, 3)}
    # The places each goes through, as document 01 has them for P7.
    paths = {
        1: [1, 2, 3, 3, 3, 4, 5, 6, 8, 9, 6, 8, 6, 8, 10],
        2: [1, 2, 3, 3, 3, 4, 5, 6, 8, 9, 8, 9],
        3: [1, 2, 3, 3, 3, 4, 5, 6, 8, 9, 6, 8, 9, 8, 9, 8, 9],
    }
    sessions = {1: 7, 2: 8, 3: 7}
    lines, taken = [], {1: 0, 2: 0, 3: 0}
    for at, call in enumerate(SAMPLE_CASE, 1):
        who = call[1]
        row = rows.get(who, {"place": 0, "session": 0, "raised": 0, "token": 0})
        if who not in rows:
            answer = 36
        elif call[0] == "leave" and row["place"] != 10:
            answer = 39
        else:
            place = 11 if call[0] == "leave" else paths[who][taken[who]]
            taken[who] += 1
            row["place"] = answer = place
            row["session"] = sessions[who] if place >= 2 else 0
            row["raised"] = int(place in (3, 4, 5))
            row["token"] = who if 5 <= place <= 11 else 0
        values = {"at": at, "who": who, **row, "answer": answer}
        lines.append(" ".join(f"{name}={values[name]}" for name in FIELDS))
    return "\n".join(lines + [f"end={len(lines)}"]) + "\n"


def self_test():
    """Whether bad pictures and bad reports are found, and good ones are not."""
    report = sample()
    code, svg = draw(report)
    good = code == 0 and not problems(report, svg)
    if not good:
        print("the sample's own picture is not right:", problems(report, svg))
    root = ElementTree.fromstring(svg)
    waits = [(g.get("data-who"), g.get("data-row")) for g in root.iter(SVG + "g") if g.get("class") == "wait"]
    if waits != [("2", "1"), ("3", "2")]:
        print("P7's waits are drawn as", waits)
        good = False
    event = re.search(r'<g class="event place-10"[^>]*>.*?</g>\n', svg, re.S).group(0)
    swapped = svg.replace('data-line="at=3 ', 'data-line="at=@ ').replace('data-line="at=4 ', 'data-line="at=3 ')
    bad_pictures = {
        "an event left out": svg.replace(event, ""),
        "an event twice": svg.replace(event, event + event),
        "a line changed": svg.replace("token=1 answer=10", "token=2 answer=10"),
        "a tip changed": svg.replace("<title>at=5 ", "<title>at=6 "),
        "two lines swapped": swapped.replace('data-line="at=@ ', 'data-line="at=4 '),
        "an event in another lane": svg.replace(event, re.sub(r' y="[0-9.]+"', ' y="1"', event)),
        "an event drawn as another": svg.replace("event place-10", "event place-9"),
        "the end left out": svg.replace(f"end={len(SAMPLE_CASE)}", "end=0"),
        "nobody inside on top": svg.replace('class="inside"', 'class="nothing"'),
        "not closed": svg.replace("</svg>", ""),
    }
    # Only who is inside tells hues apart: let 2 be inside too.
    alike = report.replace("place=9 session=8 raised=0 token=2 answer=9", "place=10 session=8 raised=0 token=2 answer=10")
    bad_pictures["two sessions alike"] = draw(alike)[1].replace("#d55e00", "#0072b2")
    for what, picture in bad_pictures.items():
        against = alike if what == "two sessions alike" else report
        if picture == svg or not problems(against, picture):
            print(f"not found: {what}")
            good = False
    bad_reports = {
        "nothing": "",
        "no end": report.rsplit("end=", 1)[0],
        "a wrong end": report.replace(f"end={len(SAMPLE_CASE)}", "end=3"),
        "a line cut": report[:-4],
        "a line left out": "\n".join(report.split("\n")[1:]),
        "a line that is none": report.replace("at=2 ", "at= 2 "),
        "a place that is none": report.replace("place=10", "place=14"),
        "an event before a refusal": report.split("\n")[0] + "\nrefused=12 line=3\n",
    }
    for what, bad in bad_reports.items():
        if draw(bad)[0] == 0:
            print(f"drawn all the same: {what}")
            good = False
    for last in ("end=0\n", "refused=12 line=3\n", "refused=11 line=0\n"):
        good = check(last, repr(last)) and good
    found = len(bad_pictures) + len(bad_reports)
    print(f"timeline_check.py --self-test: {found} faults, {'all found' if good else 'FAILED'}")
    return good


def main():
    if sys.argv[1:] == ["--self-test"]:
        return self_test()
    if not sys.argv[1:]:
        sys.exit(__doc__)
    good = True
    for name in sys.argv[1:]:
        report = pathlib.Path(name).read_text(encoding="ascii")
        good = check(report, name) and good
    print(f"timeline_check.py: {len(sys.argv) - 1} pictures, {'all right' if good else 'FAILED'}")
    return good


if __name__ == "__main__":
    sys.exit(0 if main() else 1)
