#!/usr/bin/env python3
"""Draws docs/speed.svg from the table of scanning in results.md: plot.py [RESULTS [SVG]].

It needs matplotlib. The picture has two sets of colours, for light and for dark surroundings, and its text is text.
"""

import os
import re
import sys

from common import answer_help

if __name__ == "__main__":
    answer_help()  # before the module that may be lacking

import matplotlib  # noqa: E402

matplotlib.use("svg")
from matplotlib import pyplot  # noqa: E402
from matplotlib.ticker import FuncFormatter, NullLocator  # noqa: E402

HERE = os.path.dirname(os.path.abspath(__file__))
RESULTS = os.path.join(HERE, "results.md")
PICTURE = os.path.join(HERE, "..", "docs", "speed.svg")
TITLE = "Scanning all tokens: times as fast as libyaml"

# each colour in light surroundings, and what takes its place in dark ones
GROUND, INK, QUIET, GRID = "#ffffff", "#1f2328", "#59636e", "#d8dee4"
FASTER, SLOWER = "#2a78d6", "#bc5a13"
DARK = {GROUND: "#0d1117", INK: "#e6edf3", QUIET: "#9198a1", GRID: "#30363d", FASTER: "#3987e5", SLOWER: "#d9742b"}


def times_of(cell):
    """The figures of the runs, the smallest first, and whether libyaml was stopped in one of them."""
    return sorted(float(figure) for figure in re.findall(r"[0-9.]+", cell)), "over" in cell


def read_rows(path):
    """The name, the figures and whether libyaml was stopped, of each row of the table of scanning."""
    with open(path, encoding="utf-8") as file:
        part = file.read().split("\n## Scanning\n", 1)[1].split("\n## ", 1)[0]
    for text in [text for text in part.splitlines() if text.startswith("| ")][1:]:
        name, *_, times = (cell.strip() for cell in text.strip("|").split(" | "))
        yield re.sub(r"` *", "\u201d", re.sub(r"`(?=[^`]*`)", "\u201c", name)), *times_of(times)


def digits(value):
    return f"{value:,.0f}" if value >= 20 else f"{value:.1f}" if value >= 2 else f"{value:.2f}"


def label_of(figures, stopped):
    ends = list(dict.fromkeys([digits(figures[0]), digits(figures[-1])]))
    return f"over {ends[0]}" if stopped else "\u2013".join(ends)


def draw_row(axes, place, figures, stopped):
    """A bar from 1 to the smallest figure, a thin line on to the largest, and both as text at the right of them."""
    least, most = figures[0], figures[-1]
    colour = FASTER if least >= 1 else SLOWER
    axes.barh(place, least - 1, left=1, height=0.62, color=colour, linewidth=0)
    axes.plot([least, most], [place, place], color=colour, linewidth=1.6, solid_capstyle="butt")
    at = (max(most, 1), place)
    style = {"va": "center", "color": INK, "fontsize": 9, "bbox": {"facecolor": GROUND, "edgecolor": "none", "pad": 1}}
    axes.annotate(label_of(figures, stopped), at, (5, 0), textcoords="offset points", **style)


def draw_axes(axes, names, most):
    axes.set_xscale("log")
    axes.set_xlim(0.3, most * 8)
    axes.set_ylim(len(names) - 0.4, -0.6)
    axes.set_yticks(range(len(names)), names, color=INK, fontsize=9)
    axes.xaxis.set_major_formatter(FuncFormatter(lambda value, _: f"{value:,g}"))
    axes.xaxis.set_minor_locator(NullLocator())
    axes.tick_params(length=0, labelcolor=INK)
    axes.tick_params(axis="x", labelcolor=QUIET, labelsize=9)
    axes.grid(axis="x", color=GRID, linewidth=0.8)
    axes.set_axisbelow(True)
    axes.axvline(1, color=QUIET, linewidth=1)
    for side in axes.spines.values():
        side.set_visible(False)


def draw(rows, path):
    matplotlib.rcParams.update({"svg.fonttype": "none", "svg.hashsalt": "speed", "font.family": "sans-serif"})
    figure, axes = pyplot.subplots(figsize=(8.2, 0.6 + 0.27 * (len(rows) + 2)), facecolor=GROUND)
    axes.set_facecolor(GROUND)
    draw_axes(axes, [name for name, _, _ in rows], max(figures[-1] for _, figures, _ in rows))
    for place, (_, figures, stopped) in enumerate(rows):
        draw_row(axes, place, figures, stopped)
    figure.suptitle(TITLE, x=0.02, ha="left", color=INK, fontsize=11.5, fontweight="bold")
    note = "1 is libyaml; the scale is logarithmic. A bar ends at the lower of two runs, its line at the higher."
    if any(stopped for _, _, stopped in rows):
        note += " Over: libyaml was stopped."
    figure.text(0.02, 0.015, note, color=QUIET, fontsize=8.5)
    figure.tight_layout(rect=(0.01, 0.035, 1, 0.99))
    figure.savefig(path, format="svg", metadata={"Title": TITLE, "Date": None, "Creator": None})


def add_dark(path):
    """Adds the rules that put the colours for dark surroundings in place of the others."""
    kinds = [(kind, *colours) for colours in DARK.items() for kind in ("fill", "stroke")]
    rules = [f'[style*="{kind}: {light}"]{{{kind}:{dark}!important}}' for kind, light, dark in kinds]
    with open(path, encoding="utf-8") as file:
        text = re.sub(r"[ \t]+$", "", file.read(), flags=re.MULTILINE)
    style = f"<style>@media (prefers-color-scheme:dark){{{''.join(rules)}}}</style>\n"
    with open(path, "w", encoding="utf-8") as file:
        file.write(re.sub(r"( *<defs>)", lambda found: f" {style}{found[1]}", text, count=1))


def main():
    results, picture = (sys.argv[1:] + [RESULTS, PICTURE][len(sys.argv) - 1 :])[:2]
    draw(list(read_rows(results)), picture)
    add_dark(picture)


if __name__ == "__main__":
    main()
