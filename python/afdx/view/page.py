"""Makes the page: one text of HTML that needs no other file."""
from collections.abc import Iterator
from dataclasses import dataclass
from functools import partial
from pathlib import Path
from typing import Any

from markupsafe import Markup

from afdx import printed
from afdx.pages import templates, words
from afdx.pages.drawing import svg_of
from afdx.program import Progress
from afdx.view import differences, pictures
from afdx.view.bars import Bar, bars_of
from afdx.view.pairs import Pair
from afdx.view.provenance import Provenance
from afdx.view.recorded import Recorded
from afdx.view.run import PORT_PARTS, Run
from afdx.view.spells import SHOWN, Babbling
from afdx.view.strips import Strip, strip
from afdx.view.verdict import verdict_of

WIDE, NARROW = 11.8, 4.2  # inches of the first picture


@dataclass(frozen=True)
class PortCard:
    port: str
    breaks: str
    bars: list[Bar]
    fullest: int | None  # when the buffer was


@dataclass(frozen=True)
class PolicedCard:
    link: int
    babbling: Babbling
    passed: int
    strip: Strip


@dataclass(frozen=True)
class PortDelays:
    port: int
    picture: Markup
    scale: int  # the greatest delay, ns
    strips: list[tuple[Pair, Strip, Recorded | None]]


def port_cards(run: Run) -> list[PortCard]:
    occupied = {row["port"]: row for row in run.occupied}
    cards = []
    for need in run.needs:
        seen = occupied[need["port"]]
        at = printed.number(seen["at"])
        fullest = None if at is None or run.clock.first is None else at - run.clock.first
        cards.append(PortCard(need["port"], printed.listed(need["breaks"]), bars_of(need, seen), fullest))
    return cards


def policed_cards(run: Run) -> Iterator[PolicedCard]:
    for place, link in enumerate(run.policed.links):
        babbling = run.policed.spells[link]
        passed, _ = run.policed.passed.points(place)
        drawn = strip(*run.policed.early.points(place), max(babbling.greatest, 1), run.span, passed)
        yield PolicedCard(link, babbling, int(run.fates.by_link["passed"][link]), drawn)


def link_strip(run: Run, pair: Pair, place: int, scale: int,
               recorded: Recorded | None) -> tuple[Pair, Strip, Recorded | None]:
    """Draws the delays of a link, and with recordings their delays and their differences."""
    marks = run.recordings.differences.ticks.points(place)[0] if run.recordings else None
    drawn = strip(*run.drawn.links.points(place), pair.bound or scale, run.span, marks,
                  recorded.between if recorded else None)
    return pair, drawn, recorded


def port_delays(run: Run, progress: Progress) -> Iterator[PortDelays]:
    """Makes the pictures by port; of a link the bound is at the top, or else the greatest delay of the port."""
    places = {id(pair): place for place, pair in enumerate(run.drawn.shown)}
    recorded = {id(link.model): link for link in run.recordings.links} if run.recordings else {}
    for port in sorted({pair.port for pair in run.drawn.shown}):
        progress.say(f"pictures of port {port}")
        picture = Markup(svg_of(pictures.port_delays(run, port), f"Delays of all that left port {port}"))
        own = [pair for pair in run.drawn.shown if pair.port == port]
        scale = max(pair.greatest or 0 for pair in own)
        strips = [link_strip(run, pair, places[id(pair)], scale, recorded.get(id(pair))) for pair in own]
        yield PortDelays(port, picture, scale, strips)


def both(first: int, ns: int) -> str:
    """Writes an instant as the time after the first frame, and in UTC."""
    return f"{words.since(ns)} ({words.utc(first + ns)} UTC)"


def overviews(run: Run, progress: Progress) -> list[Markup]:
    """Makes the first picture, for wide and for narrow places."""
    progress.say("pictures of the run")
    return [Markup(svg_of(pictures.overview(run, width), "The run at a glance")) for width in (WIDE, NARROW)]


def marked(run: Run) -> list[Markup]:
    """Makes the picture of all differences, for wide and for narrow places, if there are some."""
    found = run.recordings.differences if run.recordings else None
    return [Markup(svg_of(pictures.differing(found, width), "Differences of the recordings"))
            for width in (WIDE, NARROW)] if found and found.many else []


def template(name: str) -> Any:
    return templates.environment(Path(__file__).resolve().parent).get_template(name)


def parts_of(run: Run, progress: Progress, depth: int = 2, mark: str = "") -> dict[str, Any]:
    """Returns what the templates show of a run: below headings of this depth, with names that begin with the mark."""
    first = run.clock.first
    return {
        "depth": depth, "mark": mark, "run": run, "first": first, "verdict": verdict_of(run),
        "both": partial(both, first or 0), "overview": [] if first is None else overviews(run, progress),
        "port_cards": port_cards(run), "policed_cards": policed_cards(run), "port_delays": port_delays(run, progress),
        "with_pictures": {(pair.link, pair.port) for pair in run.drawn.shown}, "port_parts": PORT_PARTS,
        "spells_shown": SHOWN}


def page(run: Run, title: str, provenance: Provenance, progress: Progress, rows: str) -> str:
    """Returns the text of the page; `rows` is the name of the file that has all differences."""
    text = template("page.html").render(
        **parts_of(run, progress), title=title, provenance=provenance, marked=marked(run), kinds=differences.KINDS,
        rows_shown=differences.SHOWN, rows_file=rows)
    progress.clear()
    return str(text)
