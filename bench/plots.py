#!/usr/bin/env python3
"""Draws the figures of bench/figures.txt as pictures (SVG, no script in them), for light and dark pages.

    bench/plots.py            writes docs/plots/NAME.svg for each plot
    bench/plots.py --check    looks whether each is there as it would be written, and no other, and whether docs/SPEED.md has each figure

Nothing but Python's standard library is needed. The last line of --check is `N passed, M failed`; the status is 1 if M isn't 0.
"""
import dataclasses
import math
import pathlib
import re
import sys
from html import escape

ROOT = pathlib.Path(__file__).resolve().parent.parent
FIGURES, PLOTS, PAGE = ROOT / "bench/figures.txt", ROOT / "docs/plots", ROOT / "docs/SPEED.md"

WIDTH = 760
FONT = "ui-sans-serif, system-ui, 'Segoe UI', 'DejaVu Sans', sans-serif"

# The colours of a plot's series on a light and on a dark page. Every other line is dashed.
LIGHT = {"page": "#ffffff", "ink": "#1f2328", "faint": "#59636e", "grid": "#d8dee4", "series": ["#1f6feb", "#bc4c00", "#1a7f37", "#8250df"]}
DARK = {"page": "#0d1117", "ink": "#e6edf3", "faint": "#9198a1", "grid": "#30363d", "series": ["#6cb6ff", "#f69d50", "#57d38c", "#c297ff"]}
DASHES = ["none", "7 4"]


@dataclasses.dataclass
class Plot:
    """A plot: its words, and the numbers of each of its rows."""

    name: str
    words: dict
    rows: list

    def parts(self, word):
        return [part.strip() for part in self.words.get(word, "").split("|")]

    def number(self, figure):
        """What a figure stands for, in the plot's unit."""
        return float(figure.replace(",", "")) / float(self.words.get("unit", "1").replace(",", ""))

    def label(self, figure):
        """A figure as it is shown: unchanged, or in the plot's unit with three digits."""
        return f"{self.number(figure):#.3g}" if "unit" in self.words else figure


def read_plots(text):
    plots = []
    for line in text.splitlines():
        if not line.strip() or line.startswith("#"):
            continue
        if line.startswith("["):
            plots.append(Plot(line.strip("[]"), {}, []))
        elif "|" in line and ":" not in line.partition("|")[0]:
            name, *numbers = [part.strip() for part in line.split("|")]
            plots[-1].rows.append((name, numbers))
        else:
            word, _, value = line.partition(":")
            plots[-1].words[word.strip()] = value.strip()
    return plots


def style():
    def rules(colours):
        series = "".join(f".s{n}{{stroke:{it}}}.f{n}{{fill:{it}}}" for n, it in enumerate(colours["series"]))
        return f".page{{fill:{colours['page']}}}.ink{{fill:{colours['ink']}}}.faint{{fill:{colours['faint']}}}.grid{{stroke:{colours['grid']}}}{series}"

    return f"<style>text{{font-family:{FONT};font-size:13px}}.title{{font-size:15px;font-weight:600}}{rules(LIGHT)}@media (prefers-color-scheme: dark){{{rules(DARK)}}}</style>"


def text(x, y, words, kind="ink", anchor="start"):
    return f'<text x="{x:.1f}" y="{y:.1f}" class="{kind}" text-anchor="{anchor}">{escape(words)}</text>'


def rule(x1, y1, x2, y2):
    return f'<line x1="{x1:.1f}" y1="{y1:.1f}" x2="{x2:.1f}" y2="{y2:.1f}" class="grid" stroke-width="1"/>'


def mark(number):
    return f"{number:,.0f}" if number >= 100 else f"{number:g}"


def framed(plot, height, parts):
    """The whole picture: its title, what the numbers are, and what is drawn."""
    head = [text(24, 30, plot.words["title"], "title ink"), text(24, 50, f"{plot.words['values']}; {plot.words['note']}", "faint")]
    label = escape(f"{plot.words['title']}. {plot.words['values']}; {plot.words['note']}.")
    size = f'width="{WIDTH}" height="{height}" viewBox="0 0 {WIDTH} {height}"'
    lines = [f'<svg xmlns="http://www.w3.org/2000/svg" {size} role="img" aria-label="{label}">', style(), f'<rect width="{WIDTH}" height="{height}" rx="6" class="page"/>']
    return "\n".join([*lines, *head, *parts, "</svg>", ""])


def bars(plot):
    """Groups of horizontal bars, each with its number at its end."""
    series, left, thick, group = plot.parts("series"), 160, 15, 44
    most = max(plot.number(it) for _, figures in plot.rows for it in figures)
    scale = (WIDTH - left - 80) / most
    parts, y = [], 84
    x = left
    for place, name in enumerate(series):
        parts += [f'<rect x="{x}" y="{y - 12}" width="14" height="14" class="f{place}"/>', text(x + 20, y, name)]
        x += 40 + 8 * len(name)
    y += 18
    for name, figures in plot.rows:
        parts.append(text(left - 12, y + thick + 4, name, anchor="end"))
        for place, it in enumerate(figures):
            top, length = y + place * (thick + 1), plot.number(it) * scale
            parts.append(f'<rect x="{left}" y="{top}" width="{length:.1f}" height="{thick}" class="f{place}"/>')
            parts.append(text(left + length + 6, top + thick - 3, plot.label(it), "faint"))
        y += group
    return framed(plot, y + 8, parts)


def ticks(least, most, is_log):
    """The numbers at which the grid has a line: from the least figure or below it to the greatest or above it."""
    if is_log:
        powers = range(math.floor(math.log10(least)), math.ceil(math.log10(most)) + 1)
        steps = [10.0**power * n for power in powers for n in ((1,) if len(powers) > 3 else (1, 2, 5))]
        first = max(place for place, step in enumerate(steps) if step <= least)
        return [step for place, step in enumerate(steps) if place >= first and (step <= most or steps[place - 1] < most)]
    step = 10 ** math.floor(math.log10(most))
    step = step if most / step > 3 else step / 2
    return [step * n for n in range(math.ceil(most / step) + 1)]


def apart(places, gap):
    """Places as given, moved so that no two are nearer than the gap."""
    order = sorted(range(len(places)), key=lambda it: places[it])
    moved = list(places)
    for before, after in zip(order, order[1:]):
        moved[after] = max(moved[after], moved[before] + gap)
    return moved


def lines(plot):
    """A line for each series, with its name at its end."""
    over, *marks = plot.parts("over")
    xs = [float(word.replace(",", "")) for word in marks]
    is_log = plot.words.get("scale") == "log"
    left, right, top, foot, height = 76, WIDTH - 196, 76, 344, 400
    rows = [(name, [plot.number(it) for it in figures]) for name, figures in plot.rows]
    numbers = [number for _, row in rows for number in row]
    steps = ticks(min(numbers), max(numbers), is_log)
    by = math.log10 if is_log else float
    low, high = by(steps[0]), by(steps[-1])

    def x_of(x):
        return left + (by(x) - by(xs[0])) / (by(xs[-1]) - by(xs[0])) * (right - left)

    def y_of(y):
        return foot - (by(y) - low) / (high - low) * (foot - top)

    parts = []
    for step in steps:
        parts += [rule(left, y_of(step), right, y_of(step)), text(left - 10, y_of(step) + 4, mark(step), "faint", "end")]
    for x, word in zip(xs, marks):
        parts += [rule(x_of(x), foot, x_of(x), foot + 5), text(x_of(x), foot + 22, word, "faint", "middle")]
    parts.append(text((left + right) / 2, foot + 44, over, "faint", "middle"))
    ends = apart([y_of(row[-1]) + 4 for _, row in rows], 17)
    for place, (name, row) in enumerate(rows):
        points = " ".join(f"{x_of(x):.1f},{y_of(y):.1f}" for x, y in zip(xs, row))
        parts.append(f'<polyline points="{points}" fill="none" class="s{place}" stroke-width="2.5" stroke-dasharray="{DASHES[place % 2]}"/>')
        parts += [f'<circle cx="{x_of(x):.1f}" cy="{y_of(y):.1f}" r="3.5" class="f{place}"/>' for x, y in zip(xs, row)]
        parts.append(text(right + 12, ends[place], f"{plot.label(plot.rows[place][1][-1])}: {name}", f"f{place}"))
    return framed(plot, height, parts)


def drawn(plots):
    """The text of each picture by its path."""
    return {PLOTS / f"{plot.name}.svg": {"bars": bars, "lines": lines}[plot.words["kind"]](plot) for plot in plots}


def check(plots):
    pictures, passed, faults = drawn(plots), 0, []
    for path in {*pictures, *PLOTS.glob("*")}:
        is_well = path in pictures and path.exists() and path.read_text(encoding="utf-8") == pictures[path]
        passed += is_well
        faults += [f"{path.relative_to(ROOT)} is not what bench/plots.py draws of bench/figures.txt"] * (not is_well)
    told = set(re.findall(r"\d[\d,]*(?:\.\d+)?", PAGE.read_text(encoding="utf-8")))
    for plot in plots:
        for name, figures in plot.rows:
            lacking = [it for it in figures if it not in told]
            passed += not lacking
            faults += [f"{plot.name}, {name}: docs/SPEED.md has no {' nor '.join(lacking)}"] * bool(lacking)
    print("".join(f"{it}\n" for it in faults), end="")
    print(f"{passed} passed, {len(faults)} failed")
    return 1 if faults else 0


def main():
    if sys.argv[1:] not in ([], ["--check"]):
        sys.exit(__doc__)
    plots = read_plots(FIGURES.read_text(encoding="utf-8"))
    if sys.argv[1:]:
        return check(plots)
    PLOTS.mkdir(parents=True, exist_ok=True)
    for path, picture in drawn(plots).items():
        path.write_text(picture, encoding="utf-8")
    return 0


sys.exit(main())
