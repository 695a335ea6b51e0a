"""Draws the pictures with axes, by matplotlib."""
from collections.abc import Sequence
from typing import Any

from matplotlib.figure import Figure
from matplotlib.ticker import EngFormatter, PercentFormatter

from afdx.pages.drawing import COLOURS, FOREIGN, INK, LATE, PASSED, POLICED, head, legend, rule
from afdx.view.departures import PRIORITIES
from afdx.view.differences import KINDS, Differences
from afdx.view.greatest import Floats, Ints
from afdx.view.run import Run

MARKS = {"high": "o", "low": "D"}
# of differences the mark, its colour, and how far it is below the middle of its port's row
SIGNS = {"missing": ("x", POLICED, -0.28), "extra": ("P", PASSED, -0.14), "early": ("<", COLOURS["low"], 0.0),
         "late": (">", LATE, 0.14), "foreign": ("s", FOREIGN, 0.28)}
SECONDS = EngFormatter("s", sep=" ")

Groups = Sequence[tuple[Ints, Floats]]  # instants and values, by place in PRIORITIES


def plot(axes: Any, instants: Ints, values: Floats, priority: str) -> None:
    axes.plot(instants / 1e9, values, MARKS[priority], color=COLOURS[priority], markersize=4, markeredgewidth=0,
              label=priority)


def time_axis(axes: Any, span: int) -> None:
    rule(axes)
    axes.xaxis.set_major_formatter(SECONDS)
    axes.set_xlim(-0.01 * span / 1e9, 1.01 * span / 1e9)


def policing(axes: Any, run: Run) -> None:
    """Draws a row for each of the links with most policed frames, with its passed frames and its policed ones."""
    links = run.policed.watched
    for row, link in enumerate(links):
        place = run.policed.links.index(link)
        policed, passed = (kept.points(place)[0] / 1e9 for kept in (run.policed.early, run.policed.passed))
        names = ("passed", "policed") if row == 0 else ("_", "_")
        axes.plot(policed, [row + 0.14] * len(policed), "|", color=POLICED, markersize=13, markeredgewidth=1.6,
                  label=names[1])
        axes.plot(passed, [row - 0.18] * len(passed), "|", color=PASSED, markersize=7, markeredgewidth=1.6,
                  label=names[0])
    axes.set_yticks(range(len(links)), [f"link {link}" for link in links])
    axes.set_ylim(len(links) - 0.4, -0.6)
    head(axes, "Links that were policed")
    axes.tick_params(labelbottom=False)
    axes.grid(axis="y", visible=False)


def shares(axes: Any, groups: Groups, checked: bool) -> None:
    """Draws which part of its bound each copy took; if none is promised, its delay."""
    scale = 1.0 if checked else 1e9
    greatest = 0.0
    for priority, (instants, values) in zip(PRIORITIES, groups, strict=True):
        greatest = max(greatest, values.max(initial=0) / scale)
        plot(axes, instants, values / scale, priority)
    if checked:
        axes.axhline(1, color=INK, linewidth=1.4, linestyle=(0, (5, 3)), label="bound")
        axes.yaxis.set_major_formatter(PercentFormatter(1, decimals=0))
    else:
        axes.yaxis.set_major_formatter(SECONDS)
    axes.set_ylim(0, 1.05 if checked else 1.25 * max(greatest, 1e-9))
    head(axes, "Delays, against their bounds" if checked else "Delays; no bound is promised")


def panel(figure: Any, bottom: float, height: float) -> Any:
    """Returns axes of this place and height in inches, almost as wide as the figure."""
    width, high = figure.get_size_inches()
    axes = figure.add_axes((0.85 / width, bottom / high, 1 - 1.2 / width, height / high))
    axes.locator_params(axis="x", nbins=max(3, int(width * 0.8)))
    return axes


def shade(grid: Sequence[Any], ranges: Sequence[tuple[float, float]]) -> None:
    """Shades the times at which links babbled."""
    places = [(begin / 1e9, (end - begin) / 1e9) for begin, end in ranges]
    for axes in grid:
        axes.broken_barh(places, (0, 1), transform=axes.get_xaxis_transform(), color=POLICED, alpha=0.1, linewidth=0)


def name_babbler(axes: Any, run: Run) -> None:
    """Writes the babbler's name beside its only spell."""
    link = run.policed.watched[0]
    spell = run.policed.spells[link].spells[0]
    axes.annotate(f"link {link} babbles", ((spell.begin + spell.end) / 2e9, 0.84 if run.checked else 0.97),
                  xycoords=("data", "axes fraction"), ha="center", va="top")


def overview(run: Run, width: float) -> Any:
    """Draws the whole run: who was policed, and how near the bounds all came. Places and the width are in inches."""
    links = run.policed.watched
    rows = 0.33 * len(links) + 0.1
    figure = Figure(figsize=(width, 2.75 + (rows + 0.6 if links else 0)))
    below = panel(figure, 0.3, 1.9)
    grid = [panel(figure, 2.85, rows), below] if links else [below]
    for axes in grid:
        time_axis(axes, run.span)
    shade(grid, run.policed.cover.ranges())
    if links:
        policing(grid[0], run)
    if sum(run.policed.spells[link].count for link in links) == 1:
        name_babbler(below, run)
    shares(below, [run.drawn.run.points(group) for group in range(len(PRIORITIES))], run.checked)
    return figure


def port_delays(run: Run, port: int) -> Any:
    """Draws the delays of all that left a port, high and low, with their bounds."""
    figure = Figure(figsize=(4.5, 2.7), layout="constrained")
    axes = figure.subplots()
    time_axis(axes, run.span)
    axes.locator_params(axis="x", nbins=4)
    bounds = {pair.priority: pair.bound for pair in run.pairs if pair.port == port}
    for priority, colour in COLOURS.items():
        instants, values = run.drawn.ports.points(run.drawn.port_group(port, priority))
        if len(instants) == 0:
            continue
        plot(axes, instants, values / 1e9, priority)
        bound = bounds[priority]
        if bound is not None:
            axes.axhline(bound / 1e9, color=colour, linewidth=1.6, linestyle=(0, (5, 3)), label=f"bound {bound:,} ns")
    axes.set_ylim(bottom=0)
    axes.yaxis.set_major_formatter(SECONDS)
    legend(axes, (-0.02, 0.99), 2, handletextpad=0.3, fontsize=9)
    return figure


def differing(differences: Differences, width: float) -> Any:
    """Draws when which differences were, in a row for each port that has some. The width is in inches."""
    ports = sorted({port for port, _ in differences.many})
    times, height = differences.times, 0.5 * len(ports) + 0.1
    figure = Figure(figsize=(width, height + 1.2))
    axes = panel(figure, 0.3, height)
    rule(axes)
    axes.xaxis.set_major_formatter(SECONDS)
    begin, span = (times.begin - times.first) / 1e9, differences.marks.span / 1e9
    axes.set_xlim(begin - 0.01 * span, begin + 1.01 * span)
    for kind in KINDS:
        mark, colour, below = SIGNS[kind]
        for row, port in enumerate(ports):
            instants = begin + differences.marks.points(differences.group(port, kind))[0] / 1e9
            axes.plot(instants, [row + below] * len(instants), mark, color=colour, markersize=6,
                      label=kind if (port, kind) == first_of(differences, kind) else "_")
    axes.set_yticks(range(len(ports)), [f"port {port}" for port in ports])
    axes.set_ylim(len(ports) - 0.5, -0.5)
    axes.set_title("Differences, by port and time", loc="left", fontsize=12, pad=40, fontweight="bold")
    legend(axes, (-0.01, 1), 5 if width > 6 else 3, handletextpad=0.1, borderaxespad=0.2)
    return figure


def first_of(differences: Differences, kind: str) -> tuple[int, str] | None:
    """Returns the first port that has differences of a kind, and the kind."""
    return min((pair for pair in differences.many if pair[1] == kind), default=None)
