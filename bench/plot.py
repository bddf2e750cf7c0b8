#!/usr/bin/env python3
"""Draws what bench/beside.py measured, as SVG.

    bench/plot.py FILE.json OUTFOLDER

Three files are made, of what FILE.json has:

- reads.svg: getDatas a second against the number of clients;
- informs.svg: bars of INFORMs, of forwarded writes and of round trips, a second;
- memory.svg: the resident set in MiB against the number of nodes.

Each shows the best of the rounds, and a thin line from the least to the greatest. The same file gives the same bytes.
"""
import argparse
import datetime
import json
import math
import pathlib
import sys
from typing import NamedTuple
from xml.sax.saxutils import escape

OURS, JAVA = "ours", "java"
NAMES = {OURS: "this program", JAVA: "ZooKeeper's observer"}
# Two colours that the colour-blind tell apart, and those of what is around them.
COLOURS = {OURS: "#0072b2", JAVA: "#d55e00"}
INK, FAINT, PAPER = "#222222", "#d9d9d9", "#ffffff"
FONT = "font-family='Helvetica, Arial, sans-serif'"
# Lengths in pixels: of the picture, and from its edges to the field of the axes.
WIDTH, HEIGHT = 760, 500
LEFT, RIGHT, TOP, BOTTOM = 92, 48, 108, 104
FIELD_WIDTH, FIELD_HEIGHT = WIDTH - LEFT - RIGHT, HEIGHT - TOP - BOTTOM
# At most so many ticks on an axis, above its first one.
TICKS = 6
BAR, GAP = 46, 8
GROUPS = {
    "informs": ("INFORMs as the", "leader sends them"),
    "backlog": ("INFORMs", "of a backlog"),
    "writes": ("forwarded", "setDatas"),
    "trips": ("round trips", "of one client"),
}


class Point(NamedTuple):
    """A figure of one observer: where it stands on the axis of x, and its best, least and greatest value."""

    at: float
    best: float
    least: float
    most: float


def points(figures, name, who):
    """Returns the points of a figure, in the unit of its kind, in the order of their places."""
    found = []
    for it in figures:
        values = [sample["value"] for sample in it[who]]
        if it["name"] == name and values:
            best = max(values) if it["better"] == "more" else min(values)
            found.append(Point(it["at"] or 0, best, min(values), max(values)))
    return sorted(found)


def ticks(most):
    """Returns round numbers, evenly spaced from 0 to the first that isn't below a number above 0."""
    power = 10 ** math.floor(math.log10(most / TICKS))
    step = next(it * power for it in (1, 2, 5, 10) if it * power * TICKS >= most)
    return [step * it for it in range(math.ceil(most / step - 1e-9) + 1)]


def number(it):
    return f"{it:,.0f}" if it == round(it) else f"{it:,.2f}".rstrip("0")


class Picture:
    """Elements of an SVG, in the order in which they are drawn. Lengths are in pixels, from the upper left corner."""

    def __init__(self, title):
        self.title, self.parts = title, []
        self.words(LEFT, 32, title, size=16, weight="bold")

    def put(self, name, **attributes):
        said = "".join(
            f" {key.replace('_', '-')}='{it:.1f}'" if isinstance(it, float) else f" {key.replace('_', '-')}='{it}'"
            for key, it in attributes.items()
        )
        self.parts.append(f"<{name}{said}/>")

    def words(self, x, y, said, size=13, anchor="start", weight="normal", turn=""):
        """Writes a line of text, whose anchor is `start`, `middle` or `end`."""
        place = f"x='{x:.1f}' y='{y:.1f}' font-size='{size}' font-weight='{weight}' text-anchor='{anchor}'{turn}"
        self.parts.append(f"<text {place} fill='{INK}' {FONT}>{escape(said)}</text>")

    def line(self, x1, y1, x2, y2, colour, width=1.0, **more):
        at = {"x1": float(x1), "y1": float(y1), "x2": float(x2), "y2": float(y2)}
        self.put("line", **at, stroke=colour, stroke_width=width, **more)

    def axis_of_y(self, marks, unit):
        """Draws the axis at the left, with a faint line across the field at each mark. Returns where a value stands."""
        place = lambda value: TOP + FIELD_HEIGHT * (1 - value / marks[-1])  # noqa: E731
        for it in marks:
            self.line(LEFT, place(it), LEFT + FIELD_WIDTH, place(it), FAINT)
            self.words(LEFT - 8, place(it) + 4.5, number(it), anchor="end")
        middle = TOP + FIELD_HEIGHT / 2
        self.words(20, middle, unit, anchor="middle", turn=f" transform='rotate(-90 20 {middle:.1f})'")
        self.line(LEFT, TOP, LEFT, TOP + FIELD_HEIGHT, INK)
        return place

    def axis_of_x(self, marks, place, unit):
        """Draws the axis below, where each mark has a number."""
        floor = TOP + FIELD_HEIGHT
        self.line(LEFT, floor, LEFT + FIELD_WIDTH, floor, INK)
        for it in marks:
            self.line(place(it), floor, place(it), floor + 5, INK)
            self.words(place(it), floor + 20, number(it), anchor="middle")
        self.words(LEFT + FIELD_WIDTH / 2, floor + 42, unit, anchor="middle")

    def legend(self, entries):
        """Names what is drawn, two in a row below the title: a text, whose it is, and whether its line is broken."""
        for at, (said, who, is_broken) in enumerate(entries):
            x, y = LEFT + 300 * (at % 2), 58 + 22 * (at // 2)
            self.line(x, y, x + 34, y, COLOURS[who], 2.0, **dashes(is_broken))
            mark(self, who, x + 17, y)
            self.words(x + 42, y + 4.5, said)

    def caption(self, lines):
        for at, it in enumerate(lines):
            self.words(LEFT, HEIGHT - 30 + 16 * at, it, size=11)

    def written(self):
        size = f"width='{WIDTH}' height='{HEIGHT}' viewBox='0 0 {WIDTH} {HEIGHT}'"
        head = f"<svg xmlns='http://www.w3.org/2000/svg' {size} role='img'>\n<title>{escape(self.title)}</title>\n"
        paper = f"<rect x='0' y='0' width='{WIDTH}' height='{HEIGHT}' fill='{PAPER}'/>\n"
        return head + paper + "\n".join(self.parts) + "\n</svg>\n"


def dashes(is_broken):
    return {"stroke_dasharray": "6 4"} if is_broken else {}


def mark(picture, who, x, y):
    """Draws a point: a disc for this program, a square for ZooKeeper's."""
    if who == OURS:
        picture.put("circle", cx=float(x), cy=float(y), r=4.5, fill=COLOURS[who])
    else:
        picture.put("rect", x=x - 4.0, y=y - 4.0, width=8.0, height=8.0, fill=COLOURS[who])


def curve(picture, who, found, place_x, place_y, is_broken=False):
    """Draws the best values of an observer, joined by a line, each with its least and greatest."""
    through = " ".join(f"{place_x(it.at):.1f},{place_y(it.best):.1f}" for it in found)
    picture.put("polyline", points=through, fill="none", stroke=COLOURS[who], stroke_width=2.0, **dashes(is_broken))
    for it in found:
        x = place_x(it.at)
        picture.line(x, place_y(it.least), x, place_y(it.most), COLOURS[who])
        mark(picture, who, x, place_y(it.best))


def caption_of(found):
    """Returns two lines: when and where it was measured, and with what."""
    machine, versions, settings = found["machine"], found["versions"], found["settings"]
    day = datetime.date.fromisoformat(found["date"])
    date = f"{day.day} {day:%B} {day.year}"
    used = f"{machine['usable']} of " if machine["usable"] < machine["cores"] else ""
    where = f"{date}; {used}{machine['cores']} cores, {machine['model']}; load {machine['load_before']:.1f} before"
    where += f"; {settings['note']}" if settings["note"] else ""
    programs = f"{versions['program']}; ZooKeeper {versions['zookeeper']}, Java {versions['java']}"
    return where, f"{programs}; rounds: {settings['rounds']}, the best shown, thin lines: least to greatest"


def reads(found):
    """Returns the picture of getDatas a second against clients, or None where there are none."""
    both = {who: points(found["figures"], "reads", who) for who in (OURS, JAVA)}
    if not both[OURS] or not both[JAVA]:
        return None
    picture = Picture(f"Reads a second, {found['settings']['depth']} under way for each client")
    places = sorted({it.at for them in both.values() for it in them})
    most = max(it.most for them in both.values() for it in them)
    place_y = picture.axis_of_y(ticks(most), "getDatas of 100 bytes a second")
    # Each number of clients has as much room, since they double.
    room = FIELD_WIDTH / len(places)
    place_x = lambda at: LEFT + room * (places.index(at) + 0.5)  # noqa: E731
    picture.axis_of_x(places, place_x, "clients")
    for who, them in both.items():
        curve(picture, who, them, place_x, place_y)
    picture.legend([(NAMES[who], who, False) for who in both])
    return picture


def bar(picture, who, x, it, place_y):
    """Draws a bar whose left edge is x, its least and greatest value, and its best one as a number above."""
    floor = TOP + FIELD_HEIGHT
    top, middle = place_y(it.best), x + BAR / 2
    picture.put("rect", x=float(x), y=float(top), width=float(BAR), height=float(floor - top), fill=COLOURS[who])
    picture.line(middle, place_y(it.least), middle, place_y(it.most), INK, 1.5)
    picture.words(middle, place_y(it.most) - 6, number(round(it.best)), size=11, anchor="middle")


def informs(found):
    """Returns the picture of INFORMs, forwarded writes and round trips, or None where there are none of these."""
    groups = {}
    for name in GROUPS:
        both = {who: points(found["figures"], name, who) for who in (OURS, JAVA)}
        if both[OURS] and both[JAVA]:
            groups[name] = both
    if not groups:
        return None
    picture = Picture("INFORMs, forwarded writes and round trips")
    most = max(it.most for both in groups.values() for them in both.values() for it in them)
    place_y = picture.axis_of_y(ticks(most), "a second")
    floor, room = TOP + FIELD_HEIGHT, FIELD_WIDTH / len(groups)
    for at, (name, both) in enumerate(groups.items()):
        middle = LEFT + room * (at + 0.5)
        bar(picture, OURS, middle - GAP / 2 - BAR, both[OURS][-1], place_y)
        bar(picture, JAVA, middle + GAP / 2, both[JAVA][-1], place_y)
        for line, said in enumerate(GROUPS[name]):
            picture.words(middle, floor + 20 + 16 * line, said, anchor="middle")
    picture.line(LEFT, floor, LEFT + FIELD_WIDTH, floor, INK)
    picture.legend([(NAMES[who], who, False) for who in (OURS, JAVA)])
    return picture


def memory(found):
    """Returns the picture of resident MiB against nodes, or None where there are none. Lines are broken for observers
    that were started beside the tree."""
    kinds = (("followed", "grown by creates", False), ("started", "just started", True))
    curves = []
    for name, said, is_broken in kinds:
        for who in (OURS, JAVA):
            them = points(found["figures"], name, who)
            curves += [(who, them, said, is_broken)] if them else []
    if not curves:
        return None
    picture = Picture("Resident set by nodes of the tree")
    all_points = [it for _, them, _, _ in curves for it in them]
    place_y = picture.axis_of_y(ticks(max(it.most for it in all_points)), "resident MiB")
    marks = ticks(max(1, *(it.at for it in all_points)))
    place_x = lambda at: LEFT + FIELD_WIDTH * at / marks[-1]  # noqa: E731
    picture.axis_of_x(marks, place_x, "nodes of 100 bytes of data")
    for who, them, _, is_broken in curves:
        curve(picture, who, them, place_x, place_y, is_broken)
    picture.legend([(f"{NAMES[who]}, {said}", who, is_broken) for who, _, said, is_broken in curves])
    return picture


def main():
    parser = argparse.ArgumentParser(description=__doc__, formatter_class=argparse.RawDescriptionHelpFormatter)
    parser.add_argument("file", metavar="FILE.json", type=pathlib.Path)
    parser.add_argument("folder", metavar="OUTFOLDER", type=pathlib.Path)
    options = parser.parse_args()
    found = json.loads(options.file.read_text(encoding="utf-8"))
    options.folder.mkdir(parents=True, exist_ok=True)
    for draw in (reads, informs, memory):
        picture, file = draw(found), options.folder / f"{draw.__name__}.svg"
        if picture is None:
            print(f"{options.file} has nothing for {file.name}")
            continue
        picture.caption(caption_of(found))
        file.write_text(picture.written(), encoding="utf-8")
        print(file)
    return 0


if __name__ == "__main__":
    sys.exit(main())
