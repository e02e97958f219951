#!/usr/bin/env python3
"""The plots of docs/BENCH.md: docs/bench.svg from its table, docs/growth.svg from docs/growth.txt.

`tests/bench/plot.py`, in the repository's root or anywhere.
"""

import math
import pathlib
from xml.sax.saxutils import escape

DOCS = pathlib.Path(__file__).resolve().parent.parent.parent / "docs"
INK = "#1a1a1a"
GRID = "#d4d4d4"


class Picture:
    """An SVG of this size on a white ground."""

    def __init__(self, width, height, title):
        self.parts = [
            f'<svg xmlns="http://www.w3.org/2000/svg" width="{width}" height="{height}" viewBox="0 0 {width} {height}" '
            'font-family="DejaVu Sans, Verdana, Arial, sans-serif">',
            f"<title>{escape(title)}</title>",
            f'<rect width="{width}" height="{height}" fill="#ffffff"/>',
        ]

    def line(self, x1, y1, x2, y2, colour=GRID, width=1.0, dashes=""):
        dashed = f' stroke-dasharray="{dashes}"' if dashes else ""
        self.parts.append(
            f'<line x1="{x1:.1f}" y1="{y1:.1f}" x2="{x2:.1f}" y2="{y2:.1f}" stroke="{colour}" stroke-width="{width}"{dashed}/>'
        )

    def text(self, x, y, words, size=13, anchor="start", bold=False, turned=False):
        weight = ' font-weight="bold"' if bold else ""
        turn = f' transform="rotate(-90 {x:.1f} {y:.1f})"' if turned else ""
        self.parts.append(
            f'<text x="{x:.1f}" y="{y:.1f}" font-size="{size}" fill="{INK}" text-anchor="{anchor}"{weight}{turn}>{escape(words)}</text>'
        )

    def polyline(self, points, colour, width, dashes=""):
        dashed = f' stroke-dasharray="{dashes}"' if dashes else ""
        places = " ".join(f"{x:.1f},{y:.1f}" for x, y in points)
        self.parts.append(f'<polyline points="{places}" fill="none" stroke="{colour}" stroke-width="{width}"{dashed}/>')

    def mark(self, shape, x, y, colour, size=5.0):
        """A mark around a point: circle, square, triangle or diamond."""
        stroke = f'fill="{colour}" stroke="{INK}" stroke-width="0.8"'
        if shape == "circle":
            self.parts.append(f'<circle cx="{x:.1f}" cy="{y:.1f}" r="{size - 0.5:.1f}" {stroke}/>')
            return
        corners = {
            "square": [(-0.85, -0.85), (0.85, -0.85), (0.85, 0.85), (-0.85, 0.85)],
            "triangle": [(0, -1.1), (1, 0.8), (-1, 0.8)],
            "diamond": [(0, -1.15), (1.15, 0), (0, 1.15), (-1.15, 0)],
        }[shape]
        places = " ".join(f"{x + size * dx:.1f},{y + size * dy:.1f}" for dx, dy in corners)
        self.parts.append(f'<polygon points="{places}" {stroke}/>')

    def write(self, name):
        (DOCS / name).write_text("\n".join(self.parts + ["</svg>"]) + "\n")


# The ratios.

SIZES = {
    "64": ("circle", "#ffd08a"),
    "512": ("square", "#6db3e8"),
    "4096": ("triangle", "#2f7d4f"),
    "65536": ("diamond", "#2b1b4d"),
}
RATIOS = [0.02, 0.05, 0.1, 0.2, 0.5, 1, 2, 5, 10, 20]


def table():
    """The rows of BENCH.md's table of times: {row: {window: ratio}}, the host forms' first."""
    rows, inside = {}, False
    for line in (DOCS / "BENCH.md").read_text().splitlines():
        cells = [cell.strip() for cell in line.strip("|").split("|")]
        if cells[:3] == ["row", "window", "library"]:
            inside = True
        elif not line.startswith("|"):
            inside = False
        elif inside and cells[1] in SIZES:
            rows.setdefault(cells[0], {})[cells[1]] = float(cells[4])
    return dict(sorted(rows.items(), key=lambda row: not row[0].endswith("host")))


def bench():
    rows = table()
    left, right, top, height = 270, 1000, 92, 28
    low, high = 0.014, 40
    bottom = top + height * len(rows)
    picture = Picture(1040, bottom + 62, "Time of a call of the library, as a ratio to the source's")

    def across(ratio):
        return left + (right - left) * math.log(min(max(ratio, low), high) / low) / math.log(high / low)

    picture.text(left, 26, "Time of a call of the library, as a ratio to the source's", 17, bold=True)
    picture.text(left, 47, "left of the line at 1.0 the library is faster; the source as rustc inlines it; a mark at an edge lies beyond it", 13)
    place = left
    picture.text(place, 72, "window size:", 13)
    for size, (shape, colour) in SIZES.items():
        place += 110
        picture.mark(shape, place, 67, colour)
        picture.text(place + 11, 72, size, 13)
    for ratio in RATIOS:
        at = across(ratio)
        picture.line(at, top, at, bottom, INK if ratio == 1 else GRID, 2.0 if ratio == 1 else 1.0)
        picture.text(at, bottom + 19, "1.0" if ratio == 1 else f"{ratio:g}", 13, "middle", ratio == 1)
    picture.text((left + right) / 2, bottom + 45, "ratio of nanoseconds a call, library / source (logarithmic)", 14, "middle")
    for number, (name, ratios) in enumerate(rows.items()):
        middle = top + height * (number + 0.5)
        picture.line(left, middle + height / 2, right, middle + height / 2)
        picture.text(left - 12, middle + 5, name, 13, "end")
        for place, (size, (shape, colour)) in enumerate(SIZES.items()):
            if size in ratios:
                picture.mark(shape, across(ratios[size]), middle + 6 * (place - 1.5), colour, 4.6)
    picture.line(left, top, left, bottom, INK)
    picture.write("bench.svg")


# How the time grows.

SERIES = {
    "size, 8 live": ("window", "window size, 8 live values", [64, 512, 4096, 65536]),
    "size, half live": ("window", "window size, every second position live", [64, 512, 4096, 65536]),
    "live": ("live", "live values in a window of 65,536", [1, 16, 256, 4096, 65536]),
}
KINDS = {"library": ("#14366b", 2.4, "", "circle"), "source": ("#e08a1e", 2.0, "6 3", "square")}


def grown():
    """docs/growth.txt: {call: {series: [row]}}."""
    calls = {}
    lines = [line for line in (DOCS / "growth.txt").read_text().splitlines() if not line.startswith("#")]
    names = lines[0].split("\t")
    for line in lines[1:]:
        row = dict(zip(names, line.split("\t")))
        calls.setdefault(row["call"], {}).setdefault(row["series"], []).append(row)
    return calls


def ceiling(value):
    """The next round number, and a step that divides it."""
    step = 10 ** math.floor(math.log10(value))
    step = next(step * part for part in (0.2, 0.5, 1, 2, 5) if value / (step * part) <= 5)
    return math.ceil(value / step) * step, step


def panel(picture, frame, rows, by, ticks, top_value, step):
    """One call in one series: a line for the library, one for the source."""
    x, y, width, height = frame
    low, high = math.log(ticks[0]), math.log(ticks[-1])

    def across(value):
        return x + width * (math.log(value) - low) / (high - low)

    def up(value):
        return y + height * (1 - value / top_value)

    for number in range(round(top_value / step) + 1):
        picture.line(x, up(number * step), x + width, up(number * step))
        picture.text(x - 7, up(number * step) + 4, f"{number * step:g}", 11, "end")
    for tick in ticks:
        picture.line(across(tick), y + height, across(tick), y + height + 4, INK)
        picture.text(across(tick), y + height + 17, f"{tick:,}", 11, "middle")
    picture.line(x, y + height, x + width, y + height, INK)
    picture.line(x, y, x, y + height, INK)
    for kind, (colour, thick, dashes, shape) in KINDS.items():
        points = [(across(float(row[by])), up(float(row[kind]))) for row in rows]
        picture.polyline(points, colour, thick, dashes)
        for place in points:
            picture.mark(shape, *place, colour, 3.0)


def growth():
    calls = grown()
    left, width, gap, top, height, pitch = 80, 330, 62, 118, 104, 168
    total = left + len(SERIES) * (width + gap)
    picture = Picture(total, top + pitch * len(calls) + 14, "Time of a call against the window's size and the live values")
    picture.text(left, 28, "Time of a call, nanoseconds, against the window's size and the number of live values", 17, bold=True)
    for place, (kind, (colour, thick, dashes, shape)) in enumerate(KINDS.items()):
        at = left + 330 * place
        picture.polyline([(at, 52), (at + 46, 52)], colour, thick, dashes)
        picture.mark(shape, at + 23, 52, colour, 3.6)
        words = {"library": "library (host forms where there are)", "source": "source, behind a call"}[kind]
        picture.text(at + 56, 57, words, 13)
    for column, (series, (by, heading, ticks)) in enumerate(SERIES.items()):
        x = left + column * (width + gap)
        picture.text(x + width / 2, 84, heading, 14, "middle", bold=True)
        for line, (call, of_call) in enumerate(calls.items()):
            y = top + pitch * line
            top_value, step = ceiling(max(float(row[kind]) for row in of_call[series] for kind in KINDS))
            picture.text(x + 6, y - 8, call, 13, bold=True)
            panel(picture, (x, y, width, height), of_call[series], by, ticks, top_value, step)
            picture.text(x + width / 2, y + height + 34, heading, 11, "middle")
            if column == 0:
                picture.text(x - 46, y + height / 2, "ns a call", 12, "middle", turned=True)
    picture.write("growth.svg")


bench()
growth()
