#!/usr/bin/env python3
"""Draws what bench wrote with --csv.

    plot.py RESULTS.csv LONG.svg SHORT.svg

Two pictures, one for long lists and one for short ones. At the top of each, how long each peer and the twin take for
the work of one Vlomdar call; below, how the times grow with the list's length and, for long lists, with the samples.
The twin is drawn thin and behind the peers. Needs nothing but Python's own library.
"""
import csv
import math
import sys
from xml.sax.saxutils import escape

OURS = "Vlomdar"
TWIN = "twin C++"
COLOURS = {"Vlomdar": "#c8401a", "plain C++": "#3a3a3a", "NTL": "#0068a8", "FLINT": "#00805c", "twin C++": "#9a5fb0"}
MARKERS = {"Vlomdar": "circle", "plain C++": "square", "NTL": "triangle", "FLINT": "diamond", "twin C++": "ring"}
BACKGROUND, INK, FAINT, GRID = "#ffffff", "#1c1c1c", "#5f5f5f", "#e3e3e3"
FONT = "Helvetica, Arial, 'DejaVu Sans', sans-serif"
WIDTH = 1200


class Picture:
    """SVG elements in the order in which they are drawn."""

    def __init__(self):
        self.elements = []

    def line(self, x1, y1, x2, y2, colour, width=1.0, dash=""):
        dashed = f' stroke-dasharray="{dash}"' if dash else ""
        self.elements.append(f'<line x1="{x1:.1f}" y1="{y1:.1f}" x2="{x2:.1f}" y2="{y2:.1f}"'
                             f' stroke="{colour}" stroke-width="{width}"{dashed}/>')

    def path(self, points, colour, width, dash=""):
        corners = " ".join(f"{x:.1f},{y:.1f}" for x, y in points)
        dashed = f' stroke-dasharray="{dash}"' if dash else ""
        self.elements.append(f'<polyline points="{corners}" fill="none" stroke="{colour}" stroke-width="{width}"'
                             f' stroke-linejoin="round"{dashed}/>')

    def text(self, x, y, words, size=16, colour=INK, anchor="start", weight="normal", around=False):
        """With `around` the letters have a rim of the background, so that a line behind them does not cross them."""
        rim = f' stroke="{BACKGROUND}" stroke-width="4" stroke-linejoin="round" paint-order="stroke"' if around else ""
        self.elements.append(f'<text x="{x:.1f}" y="{y:.1f}" font-size="{size}" fill="{colour}" text-anchor="{anchor}"'
                             f' font-weight="{weight}"{rim}>{escape(words)}</text>')

    def marker(self, x, y, contestant, radius):
        colour, shape = COLOURS[contestant], MARKERS[contestant]
        if shape == "circle":
            self.elements.append(f'<circle cx="{x:.1f}" cy="{y:.1f}" r="{radius}" fill="{colour}"/>')
            return
        if shape == "ring":
            self.elements.append(f'<circle cx="{x:.1f}" cy="{y:.1f}" r="{0.8 * radius:.1f}" fill="{BACKGROUND}"'
                                 f' stroke="{colour}" stroke-width="1.5"/>')
            return
        corners = {"square": [(-.9, -.9), (.9, -.9), (.9, .9), (-.9, .9)],
                   "triangle": [(0, -1.2), (1.1, .8), (-1.1, .8)],
                   "diamond": [(0, -1.3), (1.2, 0), (0, 1.3), (-1.2, 0)]}[shape]
        points = " ".join(f"{x + radius * dx:.1f},{y + radius * dy:.1f}" for dx, dy in corners)
        self.elements.append(f'<polygon points="{points}" fill="{colour}"/>')

    def written(self, height):
        head = (f'<svg xmlns="http://www.w3.org/2000/svg" viewBox="0 0 {WIDTH} {height}"'
                f' width="{WIDTH}" height="{height}" font-family="{FONT}">')
        ground = f'<rect width="{WIDTH}" height="{height}" rx="10" fill="{BACKGROUND}"/>'
        return "\n".join([head, ground, *self.elements, "</svg>"]) + "\n"


class Logarithmic:
    """Numbers to places from `start` to `end`, equal ratios equally far apart."""

    def __init__(self, least, most, start, end):
        self.least, self.most, self.start, self.end = least, most, start, end

    def __call__(self, value):
        part = (math.log(value) - math.log(self.least)) / (math.log(self.most) - math.log(self.least))
        return self.start + part * (self.end - self.start)

    def powers_of_ten(self):
        lowest, highest = math.ceil(math.log10(self.least) - 1e-9), math.floor(math.log10(self.most) + 1e-9)
        return [10.0 ** n for n in range(lowest, highest + 1)]


def read(name):
    with open(name, newline="", encoding="utf-8") as file:
        rows = list(csv.DictReader(file))
    for row in rows:
        for column in ("samples", "keys", "theirs", "ours"):
            row[column] = int(row[column])
        row["microseconds"] = float(row["microseconds"])
    return rows


def duration(microseconds):
    if microseconds < 1:
        return f"{1000 * microseconds:.0f} ns"
    if microseconds < 1000:
        return f"{microseconds:.3g} µs"
    return f"{microseconds / 1000:.3g} ms"


def times(ratio):
    return f"{ratio:.2g}×" if ratio < 0.95 else f"{ratio:.1f}×" if ratio < 10 else f"{ratio:.0f}×"


def spread(places, distance):
    """The same places, moved on where they would stand nearer than the distance, and then back again as a whole."""
    order = sorted(range(len(places)), key=lambda i: places[i])
    moved = dict(enumerate(places))
    for before, after in zip(order, order[1:]):
        moved[after] = max(moved[after], moved[before] + distance)
    if order:
        excess = (moved[order[-1]] - places[order[-1]]) / 2
        moved = {i: place - excess for i, place in moved.items()}
    return [moved[i] for i in range(len(places))]


def legend(picture, y):
    x = 40
    for contestant in COLOURS:
        picture.marker(x, y - 5, contestant, 7)
        picture.text(x + 14, y, contestant, 17, COLOURS[contestant], weight="bold" if contestant == OURS else "normal")
        x += 42 + 11 * len(contestant)


def works(rows):
    """The time of every contestant for each piece of work, in the order of the file."""
    found = {}
    for row in rows:
        work = (row["operation"], row["shape"], row["samples"], row["keys"], row["theirs"], row["ours"])
        found.setdefault(work, {})[row["contestant"]] = row["microseconds"]
    return found


def work_name(operation, shape, samples, keys, theirs, ours):
    difference = "" if operation != "reconcile" else ", equal" if theirs + ours == 0 else f", {theirs} + {ours}"
    return f"{operation}{difference}, {shape}, m = {samples}"


def ratio_axis(picture, scale, top, bottom):
    for tick in (0.001, 0.003, 0.01, 0.03, 0.1, 0.3, 1, 3, 10, 30, 100, 300):
        if scale.least <= tick <= scale.most:
            colour, width = (COLOURS[OURS], 2) if tick == 1 else (GRID, 1)
            picture.line(scale(tick), top, scale(tick), bottom, colour, width)
            picture.text(scale(tick), bottom + 20, f"{tick:g}×", 15, FAINT, "middle")


def ratio_row(picture, scale, y, name, found):
    """One piece of work. FLINT's and the twin's numbers stand below, the others above, apart where they would touch."""
    picture.text(40, y + 5, name, 17)
    picture.line(scale.start, y, scale.end, y, GRID)
    for contestant in (TWIN, *(other for other in found if other != TWIN)):
        picture.marker(scale(found[contestant] / found[OURS]), y, contestant, 7)
    for down, side in ((-11, ("plain C++", "NTL")), (24, ("FLINT", TWIN))):
        places = spread([scale(found[contestant] / found[OURS]) for contestant in side], 50)
        for contestant, place in zip(side, places):
            number = times(found[contestant] / found[OURS])
            picture.text(place, y + down, number, 15, COLOURS[contestant], "middle", around=True)
    picture.text(WIDTH - 40, y + 5, duration(found[OURS]), 17, COLOURS[OURS], "end", "bold")


def ratios(picture, cases, top, about):
    """One line a case, Vlomdar at 1; a peer stands to the right where it takes longer. Returns the lower edge."""
    all_ratios = [time / case[OURS] for case in cases.values() for time in case.values()]
    scale = Logarithmic(min(0.5, min(all_ratios) / 1.5), max(2, max(all_ratios) * 1.5), 375, WIDTH - 150)
    height, first = 56, top + 70
    bottom = first + height * len(cases) - 26
    picture.text(40, top, "Time of each peer and of the twin, as a multiple of Vlomdar's", 21, weight="bold")
    picture.text(40, top + 24, f"{about}; right of the line: slower than Vlomdar", 16, FAINT)
    picture.text(WIDTH - 40, top + 24, "Vlomdar's time", 16, COLOURS[OURS], "end")
    ratio_axis(picture, scale, first - 28, bottom)
    for index, (case, found) in enumerate(cases.items()):
        ratio_row(picture, scale, first + height * index, work_name(*case), found)
    return bottom + 30


class Panel:
    """One chart of times over a number, both logarithmic. Where the number may be 0, that stands left of a gap."""

    def __init__(self, picture, left, top, title, label, width=236):
        self.picture, self.title, self.label = picture, title, label
        self.left, self.right, self.top, self.bottom = left + 62, left + 62 + width, top + 34, top + 260

    def draw(self, rows, column, ticks):
        least, most = min(row["microseconds"] for row in rows), max(row["microseconds"] for row in rows)
        lowest, highest = math.floor(math.log10(least)), math.ceil(math.log10(most))
        self.vertical = Logarithmic(10 ** lowest, 10 ** highest, self.bottom, self.top)
        numbers = [row[column] for row in rows if 0 < row[column]]
        with_zero = any(row[column] == 0 for row in rows)
        self.across = Logarithmic(min(numbers), max(numbers), self.left + (32 if with_zero else 0), self.right)
        self.axes(ticks)
        ends = []
        for contestant in reversed(COLOURS):
            mine = [row for row in rows if row["contestant"] == contestant]
            points = [(row[column], self.vertical(row["microseconds"])) for row in mine]
            ends.append((contestant, self.series(contestant, points)))
        for (contestant, _), y in zip(ends, spread([y for _, y in ends], 17)):
            weight = "bold" if contestant == OURS else "normal"
            self.picture.text(self.right + 10, y + 5, contestant, 15, COLOURS[contestant], weight=weight)

    def axes(self, ticks):
        self.picture.text(self.left - 50, self.top - 14, self.title, 17, weight="bold")
        for tick in self.vertical.powers_of_ten():
            self.picture.line(self.left, self.vertical(tick), self.right, self.vertical(tick), GRID)
            self.picture.text(self.left - 7, self.vertical(tick) + 5, duration(tick), 14, FAINT, "end")
        for tick in ticks:
            x = self.across(tick) if 0 < tick else self.left
            self.picture.line(x, self.bottom, x, self.bottom + 5, FAINT)
            self.picture.text(x, self.bottom + 21, f"{tick:,}", 14, FAINT, "middle")
        self.picture.text((self.left + self.right) / 2, self.bottom + 41, self.label, 15, FAINT, "middle")

    def series(self, contestant, points):
        """Draws one contestant's line; returns the height at which it ends."""
        places = [(self.across(number), y) for number, y in points if 0 < number]
        width, dash = {OURS: (3, ""), TWIN: (1, "5 3")}.get(contestant, (1.8, ""))
        self.picture.path(places, COLOURS[contestant], width, dash)
        for x, y in places + [(self.left, y) for number, y in points if number == 0]:
            self.picture.marker(x, y, contestant, 4.2 if contestant == OURS else 3.2)
        return places[-1][1]


def growth(picture, rows, top):
    """Sketch above, reconcile below; over the keys at 16 and 64 samples, and over the samples. Returns the lower edge.
    """
    picture.text(40, top, "How the time grows, random keys", 21, weight="bold")
    top += 16
    for operation in ("sketch", "reconcile"):
        mine = [row for row in rows if row["operation"] == operation]
        for index, samples in enumerate((16, 64)):
            panel = Panel(picture, 30 + 385 * index, top, f"{operation}, m = {samples}", "keys of the list")
            wanted = [row for row in mine if row["table"] == "keys" and row["samples"] == samples]
            panel.draw(wanted, "keys", (0, 1, 10, 100, 1000, 16384))
        panel = Panel(picture, 30 + 385 * 2, top, f"{operation}, 16,384 keys", "samples m")
        panel.draw([row for row in mine if row["table"] == "samples"], "samples", (1, 2, 4, 8, 16, 32, 64))
        top += 318
    return top


def short_growth(picture, rows, top):
    """Sketch on the left, reconcile on the right; 16 samples above, 64 below. Returns the lower edge."""
    picture.text(40, top, "How the time grows up to 1,000 random keys", 21, weight="bold")
    top += 16
    for samples in (16, 64):
        for index, operation in enumerate(("sketch", "reconcile")):
            panel = Panel(picture, 30 + 580 * index, top, f"{operation}, m = {samples}", "keys of the list", 430)
            mine = [row for row in rows if row["table"] == "keys" and row["operation"] == operation]
            wanted = [row for row in mine if row["samples"] == samples and row["keys"] <= 1000]
            panel.draw(wanted, "keys", (0, 1, 10, 100, 1000))
        top += 318
    return top


def long_picture(rows):
    picture = Picture()
    legend(picture, 40)
    cases = works([row for table in ("cases", "season") for row in rows if row["table"] == table])
    lower = ratios(picture, cases, 88, "Longest lists, random or a season's runs")
    return picture.written(growth(picture, rows, lower + 34) + 10)


def short_picture(rows):
    picture = Picture()
    legend(picture, 40)
    cases = works([row for row in rows if row["table"] in ("night", "equal") and row["keys"] <= 1000])
    lower = ratios(picture, cases, 88, "300 keys, random or a night's runs")
    return picture.written(short_growth(picture, rows, lower + 34) + 10)


def main():
    if len(sys.argv) != 4:
        sys.exit(__doc__)
    rows = read(sys.argv[1])
    for name, picture in ((sys.argv[2], long_picture(rows)), (sys.argv[3], short_picture(rows))):
        with open(name, "w", encoding="utf-8") as file:
            file.write(picture)


if __name__ == "__main__":
    main()
