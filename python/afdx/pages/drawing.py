"""Draws pictures with axes by matplotlib, in one look, and makes them elements of a page."""
import io
import re
from typing import Any

import matplotlib

# Of the palette of Okabe and Ito, whose colours all readers tell apart.
COLOURS = {"high": "#0072B2", "low": "#E69F00"}
PASSED, POLICED = "#0072B2", "#D55E00"
LATE, FOREIGN = "#CC79A7", "#009E73"
INK, AXES, GRID = "#1c2024", "#5a6470", "#dfe3e8"
# What the page's style sets in place of a colour, so that the pictures follow it into the dark.
VARIABLES = {PASSED: "high", COLOURS["low"]: "low", POLICED: "policed", FOREIGN: "used", INK: "ink", AXES: "soft",
             GRID: "line"}

matplotlib.rcParams.update({
    "svg.fonttype": "none", "svg.hashsalt": "afdx-view", "font.family": "sans-serif", "font.size": 11,
    "axes.spines.top": False, "axes.spines.right": False, "axes.edgecolor": AXES, "axes.labelcolor": INK,
    "text.color": INK, "xtick.color": AXES, "ytick.color": AXES, "legend.frameon": False})


def saved(figure: Any, transparent: bool) -> str:
    text = io.StringIO()
    figure.savefig(text, format="svg", metadata={"Date": None, "Creator": None}, transparent=transparent)
    return text.getvalue()


def svg_of(figure: Any, label: str) -> str:
    """Returns the figure as an element of the page: as wide as its place, in the page's colours, without names that
    another figure has too. The label is text of HTML."""
    svg = saved(figure, True)
    svg = svg[svg.index("<svg"):]
    svg = re.sub(r"<metadata>.*?</metadata>", "", svg, flags=re.S)
    svg = re.sub(r' id="[A-Za-z.]+_?\d+_?"(?=>)', "", svg)
    svg = re.sub(r' (?:width|height)="[\d.]+pt"', "", svg, count=2)
    for colour, variable in VARIABLES.items():
        svg = re.sub(f"{colour}(?![0-9a-f])", f"var(--{variable})", svg, flags=re.I)
    return svg.replace("<svg", f'<svg role="img" aria-label="{label}"', 1)


def legend(axes: Any, place: tuple[float, float], columns: int, **look: float) -> None:
    """Writes the legend, with its lower left corner at the place, if there is something to name."""
    if axes.get_legend_handles_labels()[0]:  # else matplotlib warns on standard error
        axes.legend(loc="lower left", bbox_to_anchor=place, ncol=columns, columnspacing=1, **look)


def head(axes: Any, title: str) -> None:
    """Writes the title, and the legend below it, both at the left."""
    axes.set_title(title, loc="left", fontsize=12, pad=22, fontweight="bold")
    legend(axes, (-0.01, 0.97), 4, handletextpad=0.3, handlelength=1.5, borderaxespad=0.2)


def rule(axes: Any) -> None:
    """Draws lines at the marks of the height, below all else."""
    axes.grid(axis="y", color=GRID, linewidth=0.8)
    axes.set_axisbelow(True)
