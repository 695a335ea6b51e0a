"""Makes the page of a network: one text of HTML that needs no other file."""
from collections.abc import Iterator
from dataclasses import dataclass
from functools import partial
from typing import Any

from markupsafe import Markup
from matplotlib.figure import Figure

from afdx.pages.drawing import svg_of
from afdx.program import Progress
from afdx.view import pictures
from afdx.view.departures import PRIORITIES
from afdx.view.network.picture import drawings
from afdx.view.network.run import NetworkRun
from afdx.view.network.verdict import verdict_of
from afdx.view.network.ways import Way
from afdx.view.page import NARROW, WIDE, both, parts_of, template
from afdx.view.provenance import Provenance
from afdx.view.strips import Strip, strip


@dataclass(frozen=True)
class Section:
    """What is shown of a switch."""
    switch: str
    table: str
    text: Markup


def mark_of(switch: str) -> str:
    """Returns how names of a switch's section begin: with what no other name has."""
    return f"{switch}."


def overview(run: NetworkRun, width: float) -> Any:
    """Draws how near to their bounds the frames of all ways came. The width is in inches."""
    figure = Figure(figsize=(width, 2.75))
    axes = pictures.panel(figure, 0.3, 1.9)
    pictures.time_axis(axes, run.span)
    for own in run.runs.values():
        pictures.shade([axes], own.policed.cover.ranges())
    pictures.shares(axes, [run.drawn.run.points(group) for group in range(len(PRIORITIES))], run.asked.checked)
    return figure


def overviews(run: NetworkRun) -> list[Markup]:
    """Makes the picture of all ways, for wide and for narrow places, if there was a frame."""
    return [] if run.first is None else [Markup(svg_of(overview(run, width), "The network at a glance"))
                                         for width in (WIDE, NARROW)]


def greatest_of(run: NetworkRun) -> int:
    return max((way.greatest or 1 for way in run.drawn.shown), default=1)


def way_strips(run: NetworkRun) -> Iterator[tuple[int, Way, Strip]]:
    """Draws the delays of each way, from end to end, with its number in the table."""
    numbers = {id(way): number for number, way in enumerate(run.ways)}
    scale = greatest_of(run)
    for place, way in enumerate(run.drawn.shown):
        yield numbers[id(way)], way, strip(*run.drawn.strips.points(place), way.bound or scale, run.span)


def sections(run: NetworkRun, progress: Progress) -> Iterator[Section]:
    section = template("switch.html")
    for switch, own in run.runs.items():
        progress.say(f"pictures of {switch}")
        text = Markup(section.render(**parts_of(own, progress, 3, mark_of(switch))))
        yield Section(switch, run.asked.shown_table(switch), text)


def page(run: NetworkRun, title: str, provenance: Provenance, progress: Progress) -> str:
    """Returns the text of the page."""
    progress.say("pictures of the network")
    strips = list(way_strips(run))
    text = template("network.html").render(
        title=title, run=run, verdict=verdict_of(run), both=partial(both, run.first or 0), drawings=drawings(run),
        overview=overviews(run), strips=strips, with_pictures={number for number, _, _ in strips},
        scale=greatest_of(run), sections=list(sections(run, progress)), provenance=provenance)
    progress.clear()
    return str(text)
