#!/usr/bin/env python3
"""Draws the dashboard contrib/grafana.json as SVG, from what a running Prometheus has stored, without a Grafana.

    bench/dashboard.py OUT.svg                              the last five minutes of 127.0.0.1:9090
    bench/dashboard.py OUT.svg --prometheus HOST:PORT --minutes 30
    bench/dashboard.py OUT.svg --until 1764435600           the five minutes up to then, in seconds since 1970

Each panel has the place, the title, the unit, the thresholds and the legend that the dashboard gives it, and shows each
of its expressions, of all jobs and observers. The panels rise into empty rows, and numbers are written as Grafana does
both. `--scrape` says how often Prometheus asks the observers: a rate is taken over four times as long, as in Grafana.

docs/plots/dashboard.svg is of two observers beside a leader of ZooKeeper 3.8.0, which Prometheus asked every two
seconds (`--scrape 2`). Sessions with watches and ephemeral nodes come and go, the leader stands still for five seconds,
more connections come than `--max-per-address` lets in, and then a client writes as fast as it can. It was a build
without proofs, on a machine that did other work, so the figures measure nothing.
"""
import argparse
import datetime
import itertools
import json
import math
import pathlib
import re
import sys
import time
import urllib.parse
import urllib.request
from typing import List, NamedTuple, Tuple

sys.dont_write_bytecode = True
from drawing import INK, Box, Drawing, px  # noqa: E402
from plot import ticks  # noqa: E402

DASHBOARD = pathlib.Path(__file__).resolve().parent.parent / "contrib" / "grafana.json"
# Lengths in pixels: of the picture, of a row of the dashboard's grid, and between panels.
WIDTH, ROW, GAP, COLUMNS = 1200, 30, 8, 24
# What is above the panels and below them; and of a panel with curves: its title, and the edges of the field.
HEAD, FOOT, TITLE, LEFT, RIGHT, BOTTOM, LINE = 52, 34, 36, 82, 18, 24, 17
# Two columns of a legend, from the right edge of the panel.
FIGURES = (92, 18)
PAPER, PANEL, EDGE, FAINT, GREY = "#f4f5f5", "#ffffff", "#d8d9dc", "#e9e9ec", "#5f6673"
# Colours of curves that the colour-blind tell apart, and those that thresholds name.
CURVES = ("#0072b2", "#d55e00", "#009e73", "#cc79a7", "#56b4e9", "#e69f00")
NAMED = {"red": "#c4162a", "orange": "#e0752d", "green": "#37872d"}
CALCULATED = {"lastNotNull": ("Last *", lambda it: it[-1]), "max": ("Max", max)}
# The least value that is written with a suffix, in each unit.
THOUSANDS = (1, 1e3, 1e6, 1e9)
UNITS = {
    "none": [(1, "")],
    "short": list(zip(THOUSANDS, ("", " K", " Mil", " Bil"))),
    "ops": list(zip(THOUSANDS, (" ops/s", "K ops/s", "M ops/s", "B ops/s"))),
    "cps": list(zip(THOUSANDS, (" c/s", "K c/s", "M c/s", "B c/s"))),
    "pps": list(zip(THOUSANDS, (" p/s", " kp/s", " Mp/s", " Gp/s"))),
    "bytes": [(1024**it, suffix) for it, suffix in enumerate((" B", " KiB", " MiB", " GiB", " TiB"))],
    "s": [(1e-9, " ns"), (1e-6, " µs"), (1e-3, " ms"), (1, " s"), (60, " mins"), (3600, " hours"), (86400, " days")],
    "ms": [(1, " ms"), (1e3, " s"), (6e4, " mins"), (3.6e6, " hours"), (8.64e7, " days")],
}
# Seconds between two marks of the axis of time, of which at most so many fit.
PACES, MARKS = (5, 10, 15, 30, 60, 120, 300, 600, 900, 1800, 3600, 7200, 14400, 43200, 86400), 6


# ---- what is shown


class Span(NamedTuple):
    """The time that is shown, in seconds: its ends, the step between two points, and over how long rates are taken."""

    begin: int
    end: int
    step: int
    rate: int


class Series(NamedTuple):
    """A curve: what the legend calls it, and its points, each a time and a value."""

    name: str
    points: List[Tuple[float, float]]

    def values(self):
        return [value for _, value in self.points]


class Prometheus:
    """A Prometheus that is asked over HTTP."""

    def __init__(self, address):
        self.address = address

    def asked(self, path, **given):
        with urllib.request.urlopen(f"http://{self.address}/api/v1/{path}?{urllib.parse.urlencode(given)}") as it:
            return json.load(it)["data"]

    def version(self):
        return self.asked("status/buildinfo")["version"]

    def series(self, target, span):
        """Returns the curves of an expression of the dashboard, whose variables stand for every job and observer."""
        query = target["expr"].replace("$__rate_interval", f"{span.rate}s")
        query = re.sub(r"\$(?:job|instance)\b", ".+", query)
        told = self.asked("query_range", query=query, start=span.begin, end=span.end, step=span.step)["result"]
        found = []
        for it in told:
            name = re.sub(r"\{\{(\w+)\}\}", lambda label: it["metric"].get(label[1], ""), target["legendFormat"])
            points = [(when, float(value)) for when, value in it["values"] if math.isfinite(float(value))]
            found += [Series(name, points)] if points else []
        return sorted(found)


def written(value, unit, decimals=None):
    """Returns a value as Grafana writes it: scaled, with three digits unless it is whole or the panel says how many."""
    known = UNITS[unit]
    scale, suffix = max((it for it in known if it[0] <= abs(value)), default=next(it for it in known if it[0] == 1))
    scaled = value / scale
    if decimals is None:
        decimals = 0 if scaled == round(scaled) else max(0, 2 - math.floor(math.log10(abs(scaled))))
    return f"{scaled:.{decimals}f}{suffix}"


def marks_of(most, unit):
    """Returns the marks of the axis for values up to this one. Those of bytes are round in the unit that is written."""
    scale = max((it for it, _ in UNITS[unit] if it <= most), default=1) if unit == "bytes" else 1
    return [it * scale for it in ticks(most / scale or 1)]


# ---- drawing


def places(panels):
    """Returns the box of each panel, in their order. Each rises as far as those above it let it."""
    floors, found = [0] * COLUMNS, {}
    for it in sorted(panels, key=lambda it: (it["gridPos"]["y"], it["gridPos"]["x"])):
        at = it["gridPos"]
        columns = range(at["x"], at["x"] + at["w"])
        top = max(floors[column] for column in columns)
        for column in columns:
            floors[column] = top + at["h"]
        unit = (WIDTH - GAP) / COLUMNS
        found[it["id"]] = Box(GAP + at["x"] * unit, HEAD + top * ROW, at["w"] * unit - GAP, at["h"] * ROW - GAP)
    return [found[it["id"]] for it in panels]


def colour_at(value, settings):
    """Returns the colour that the thresholds of a panel give a value."""
    steps = settings["thresholds"]["steps"]
    return NAMED[[it["color"] for it in steps if it["value"] is None or it["value"] <= value][-1]]


def draw_stat(drawing, panel, box, series):
    """Draws the last value of each series, side by side, on the colour of its threshold if the panel wants that."""
    settings = panel["fieldConfig"]["defaults"]
    texts = {key: it["text"] for one in settings.get("mappings", ()) for key, it in one["options"].items()}
    is_filled = panel["options"]["colorMode"] == "background"
    width = (box.width - GAP) / len(series)
    for at, it in enumerate(series):
        value = it.points[-1][1]
        cell = Box(box.left + GAP + at * width, box.top + TITLE - 4, width - GAP, box.height - TITLE - GAP + 4)
        if is_filled:
            drawing.box(cell, colour_at(value, settings))
        said = texts.get(f"{value:g}") or written(value, settings["unit"], settings.get("decimals"))
        colour, middle = PANEL if is_filled else INK, cell.left + cell.width / 2
        drawing.words(middle, cell.top + 24, it.name, 13, "middle", colour)
        size = min(28, int(1.5 * cell.width / len(said)))
        drawing.words(middle, cell.bottom - 22, said, size, "middle", colour, "bold")


def draw_times(drawing, field, span):
    """Draws the axis of time. Returns where a time stands on it."""
    place = lambda when: field.left + field.width * (when - span.begin) / (span.end - span.begin)  # noqa: E731
    pace = next((it for it in PACES if (span.end - span.begin) / it <= MARKS), PACES[-1])
    form = "%H:%M:%S" if pace < 60 else "%H:%M" if pace < 86400 else "%m/%d"
    for when in range(-(-span.begin // pace) * pace, span.end + 1, pace):
        drawing.path(f"M{px(place(when))} {px(field.top)}v{px(field.height)}", FAINT)
        said = datetime.datetime.fromtimestamp(when, datetime.timezone.utc).strftime(form)
        drawing.words(place(when), field.bottom + 16, said, 11, "middle", GREY)
    return place


def draw_values(drawing, field, most, unit):
    """Draws the axis of values, which begins at 0. Returns where a value stands on it."""
    marks = marks_of(most, unit)
    place = lambda value: field.bottom - field.height * value / marks[-1]  # noqa: E731
    for it in marks:
        drawing.path(f"M{px(field.left)} {px(place(it))}h{px(field.width)}", FAINT)
        drawing.words(field.left - 8, place(it) + 4, written(it, unit), 11, "end", GREY)
    return place


def steps_of(points, step, place_x, place_y):
    """Returns a curve as the path of an SVG, with a gap where points are missing, and without the middle one of three
    points of one height."""
    drawn, last = [], None
    spots = [(when, px(place_x(when)), px(place_y(value))) for when, value in points]
    for spot, after in itertools.zip_longest(spots, spots[1:]):
        when, x, y = spot
        is_first = last is None or when - last[0] > 1.5 * step
        is_last = after is None or after[0] - when > 1.5 * step
        if is_first or is_last or not last[2] == y == after[2]:
            drawn.append(f"{'M' if is_first else 'L'}{x} {y}")
        last = spot
    return "".join(drawn)


def draw_legend(drawing, panel, box, top, series):
    """Draws the table below the curves: the name and the figures of each."""
    unit = panel["fieldConfig"]["defaults"]["unit"]
    calculated = [CALCULATED[it] for it in panel["options"]["legend"]["calcs"]]
    columns = [box.right - it for it in FIGURES[-len(calculated) :]]
    drawing.words(box.left + 14, top, "Name", 11, colour=GREY)
    for x, (said, _) in zip(columns, calculated):
        drawing.words(x, top, said, 11, "end", GREY)
    for at, it in enumerate(series):
        y = top + LINE * (at + 1)
        drawing.path(f"M{px(box.left + 14)} {px(y - 4)}h16", CURVES[at % len(CURVES)], 3)
        drawing.words(box.left + 38, y, it.name)
        for x, (_, calculate) in zip(columns, calculated):
            drawing.words(x, y, written(calculate(it.values()), unit), 12, "end")


def draw_curves(drawing, panel, box, series, span):
    legend = box.bottom - LINE * len(series) - 10
    field = Box(box.left + LEFT, box.top + TITLE, box.width - LEFT - RIGHT, legend - LINE - BOTTOM - box.top - TITLE)
    most = max((value for it in series for value in it.values()), default=0)
    place_x = draw_times(drawing, field, span)
    place_y = draw_values(drawing, field, most, panel["fieldConfig"]["defaults"]["unit"])
    for at, it in enumerate(series):
        drawing.path(steps_of(it.points, span.step, place_x, place_y), CURVES[at % len(CURVES)], 1.5)
    draw_legend(drawing, panel, box, legend, series)


def drawn(dashboard, prometheus, span):
    """Returns the whole picture."""
    drawing, boxes = Drawing(), places(dashboard["panels"])
    height = max(it.bottom for it in boxes) + FOOT
    ends = [datetime.datetime.fromtimestamp(it, datetime.timezone.utc) for it in (span.begin, span.end)]
    drawing.box(Box(0, 0, WIDTH, height), PAPER)
    drawing.words(GAP + 2, 34, dashboard["title"], 20, weight="bold")
    shown = [f"{it['label']}: {it['current']['text'][0]}" for it in dashboard["templating"]["list"]]
    shown += [f"{ends[0]:%-d %B %Y, %H:%M:%S} to {ends[1]:%H:%M:%S} UTC"]
    drawing.words(WIDTH - GAP - 2, 34, " · ".join(shown), 12, "end", GREY)
    for panel, box in zip(dashboard["panels"], boxes):
        drawing.box(box, PANEL, f" stroke='{EDGE}'")
        drawing.words(box.left + 14, box.top + 22, panel["title"], 14, weight="bold")
        series = [it for target in panel["targets"] for it in prometheus.series(target, span)]
        if not series:
            drawing.words(box.left + box.width / 2, box.top + box.height / 2 + 10, "No data", 14, "middle", GREY)
        elif panel["type"] == "stat":
            draw_stat(drawing, panel, box, series)
        else:
            draw_curves(drawing, panel, box, series, span)
    said = f"Drawn by bench/dashboard.py, not by Grafana, from the data of Prometheus {prometheus.version()}"
    drawing.words(GAP + 2, height - 13, said, 12, colour=GREY)
    return drawing.written(WIDTH, height, dashboard["title"])


def main():
    parser = argparse.ArgumentParser(description=__doc__, formatter_class=argparse.RawDescriptionHelpFormatter)
    parser.add_argument("file", metavar="OUT.svg", type=pathlib.Path)
    parser.add_argument("--prometheus", metavar="HOST:PORT", default="127.0.0.1:9090")
    parser.add_argument("--minutes", type=int, default=5, help="how long a time is shown (5)")
    parser.add_argument("--until", metavar="SECONDS", type=int, default=int(time.time()), help="its end (now)")
    parser.add_argument("--scrape", metavar="SECONDS", type=int, default=15, help="how often observers are asked (15)")
    parser.add_argument("--points", type=int, default=150, help="how many points a curve has at most (150)")
    options = parser.parse_args()
    step = max(options.scrape, 60 * options.minutes // options.points)
    rate = max(step + options.scrape, 4 * options.scrape)
    span = Span(options.until - 60 * options.minutes, options.until, step, rate)
    dashboard = json.loads(DASHBOARD.read_text(encoding="utf-8"))
    try:
        picture = drawn(dashboard, Prometheus(options.prometheus), span)
    except OSError as why:
        sys.exit(f"Prometheus at {options.prometheus}: {why}")
    options.file.write_text(picture, encoding="utf-8")
    print(f"{options.file}: {options.file.stat().st_size:,} bytes")
    return 0


if __name__ == "__main__":
    sys.exit(main())
