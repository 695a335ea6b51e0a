"""Draws the pictures of a campaign, of a few hundred points at most each, whatever the number of recordings."""
import datetime
import sqlite3
from collections.abc import Sequence
from dataclasses import dataclass
from typing import Any

import numpy
from matplotlib.axes import Axes
from matplotlib.figure import Figure
from matplotlib.ticker import FuncFormatter, MaxNLocator, PercentFormatter
from numpy.typing import NDArray

from afdx.pages.drawing import AXES, COLOURS, INK, POLICED, head, rule

PARTS = 240  # of the recordings, as many as a picture shows
BABBLERS = 12  # the links with most policed frames that the first picture has
LINE = COLOURS["high"]

RUNS = """
select recording, begin, status, (select max(1.0 * greatest / bound) from delays where run = runs.id)
from runs where "table" = (select id from tables where name = ?) order by begin is null, begin, recording"""

GREATEST = """
select runs.begin, recording, greatest from delays join runs on runs.id = run
where "table" = (select id from tables where name = ?) and switch = ? and link = ? and port = ?
and greatest is not null order by runs.begin, recording"""

Rows = Sequence[tuple[Any, ...]]
Floats = NDArray[numpy.float64]


@dataclass(frozen=True)
class Course:
    """The recordings of a table in the order of their begin."""
    recordings: list[str]
    begins: list[int | None]
    faults: list[int]  # the places of those that are faults
    shares: Floats  # of a bound, the most of a recording; NaN if there is none


def course_of(base: sqlite3.Connection, table: str) -> Course:
    """Returns the recordings of a table."""
    rows = base.execute(RUNS, (table,)).fetchall()
    faults = [place for place, row in enumerate(rows) if row[2]]
    shares = numpy.array([row[3] for row in rows], dtype=float)
    return Course([row[0] for row in rows], [row[1] for row in rows], faults, shares)


def parts_of(values: Floats) -> list[tuple[float, float, float]]:
    """Returns middle, greatest value and median of each part of the values, as many parts as a picture shows."""
    found = []
    for part in numpy.array_split(numpy.arange(len(values)), min(PARTS, len(values))):
        own = values[part][~numpy.isnan(values[part])]
        if len(own):
            found.append((float(part.mean()), float(own.max()), float(numpy.median(own))))
    return found


def recordings_axis(axes: Axes, course: Course) -> None:
    """Puts the recordings from left to right, with the day and the time at which some of them began."""

    def shown(place: float, _: object) -> str:
        begin = course.begins[int(place)] if 0 <= place < len(course.begins) else None
        if begin is None:
            return ""
        return f"{datetime.datetime.fromtimestamp(begin // 10**9, datetime.timezone.utc):%Y-%m-%d\n%H:%M}"

    rule(axes)
    axes.xaxis.set_major_locator(MaxNLocator(6, integer=True))
    axes.xaxis.set_major_formatter(FuncFormatter(shown))
    axes.set_xlim(-0.01 * len(course.recordings) - 0.5, 1.01 * len(course.recordings) - 0.5)


def overview(course: Course, babblers: Rows) -> Figure:
    """Draws how near the bounds came, recording by recording, and who babbled when."""
    links = worst_babblers(babblers)
    rows = 0.3 * len(links) + 0.2
    figure = Figure(figsize=(11.8, 3.1 + (rows + 0.9 if links else 0)))
    high = figure.get_size_inches()[1]
    if links:
        above = figure.add_axes((0.09, 3.2 / high, 0.89, rows / high))
        policing(above, course, babblers, links)
    below = figure.add_axes((0.09, 0.55 / high, 0.89, 2.0 / high))
    recordings_axis(below, course)
    parts = parts_of(course.shares)
    if parts:
        places, greatest, medians = zip(*parts)
        below.vlines(places, 0, greatest, color=LINE, alpha=0.45, linewidth=2, label="of the link nearest to its bound")
        below.plot(places, medians, "-", color=INK, linewidth=1.4, label="median of the recordings")
    if course.faults:
        below.plot(course.faults, [0] * len(course.faults), "X", color=POLICED, markersize=8, markeredgewidth=0,
                   clip_on=False, label="with a fault", zorder=5)
    below.set_ylim(0, 1.1 * max((part[1] for part in parts), default=1.0))
    below.yaxis.set_major_formatter(PercentFormatter(1, decimals=0))
    head(below, "Greatest delays of the recordings, against their bounds")
    return figure


def worst_babblers(babblers: Rows) -> list[tuple[str, int]]:
    """Returns the switches and links with most policed frames."""
    policed: dict[tuple[str, int], dict[str, int]] = {}
    for switch, link, recording, _, frames, *_ in babblers:
        policed.setdefault((switch, link), {})[recording] = frames
    most = sorted(policed, key=lambda link: -sum(policed[link].values()))
    return sorted(most[:BABBLERS])


def policing(axes: Axes, course: Course, babblers: Rows, links: list[tuple[str, int]]) -> None:
    """Draws a row for each of these links, with a mark for each recording in which it was policed."""
    places = {recording: place for place, recording in enumerate(course.recordings)}
    width = max(1, len(places) // PARTS)
    rows = {link: row for row, link in enumerate(links)}
    points = {(places[row[2]] // width * width, rows[row[0], row[1]]) for row in babblers if row[:2] in rows}
    axes.plot(*zip(*sorted(points)), "|", color=POLICED, markersize=12, markeredgewidth=2, label="policed frames")
    recordings_axis(axes, course)
    axes.grid(visible=False)
    axes.set_yticks(range(len(links)), [f"{switch} link {link}".strip() for switch, link in links], fontsize=9)
    axes.set_ylim(len(links) - 0.4, -0.6)
    axes.tick_params(labelbottom=False)
    head(axes, "Links that were policed most")


def slack(rows: Rows) -> Figure:
    """Draws how many greatest delays took which part of their bounds."""
    figure = Figure(figsize=(5.8, 3.2), layout="constrained")
    axes = figure.subplots()
    rule(axes)
    begins, ends, counts = zip(*rows)
    axes.bar(begins, counts, width=numpy.subtract(ends, begins), align="edge", color=LINE,
             label="links at ports, of each recording")
    axes.axvline(100, color=INK, linewidth=1.4, linestyle=(0, (5, 3)), label="bound")
    axes.set_yscale("log")
    axes.xaxis.set_major_formatter(PercentFormatter(decimals=0))
    axes.set_xlim(0, 103)
    head(axes, "Greatest delays, of their bounds")
    return figure


def compare(rows: Rows, before: str, after: str) -> Figure:
    """Draws the greatest delay of each link and port under two tables."""
    figure = Figure(figsize=(5.8, 3.8), layout="constrained")
    axes = figure.subplots()
    rule(axes)
    points = sorted({(round(row[4] / 1e3, 1), round(row[5] / 1e3, 1)) for row in rows})
    top = 1.05 * max(max(point) for point in points)
    axes.plot([0, top], [0, top], "-", color=AXES, linewidth=1, label="no change")
    axes.plot(*zip(*points), "o", color=LINE, markersize=4, markeredgewidth=0, alpha=0.7, label="a link at a port")
    axes.set_xlabel(f"{before}, µs")
    axes.set_ylabel(f"{after}, µs")
    axes.set_xlim(0, top)
    axes.set_ylim(0, top)
    head(axes, "Greatest delays, all recordings")
    return figure


def trend(base: sqlite3.Connection, table: str, course: Course, row: tuple[Any, ...]) -> Figure:
    """Draws the greatest delays of a link at a port from recording to recording, and its step."""
    switch, link, port, _, step, before, after, *_ = row
    rows = base.execute(GREATEST, (table, switch, link, port)).fetchall()
    figure = Figure(figsize=(5.8, 2.6), layout="constrained")
    axes = figure.subplots()
    places = {recording: place for place, recording in enumerate(course.recordings)}
    values = numpy.full(len(places), numpy.nan)
    values[[places[recording] for _, recording, _ in rows]] = [greatest / 1e3 for _, _, greatest in rows]
    middles, greatest, medians = zip(*parts_of(values))
    axes.vlines(middles, medians, greatest, color=AXES, alpha=0.6, linewidth=2, label="to the greatest")
    axes.plot(middles, medians, "o", color=LINE, markersize=3, markeredgewidth=0, label="median")
    at = places[step]
    axes.step([0, at, len(places)], [before / 1e3, after / 1e3, after / 1e3], where="post", color=POLICED,
              linewidth=1.6, label=f"from {step} on".replace("$", r"\$"))
    recordings_axis(axes, course)
    axes.set_ylim(bottom=0)
    axes.set_ylabel("µs")
    head(axes, f"{switch} link {link} at port {port}".strip())
    return figure
