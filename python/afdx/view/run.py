"""Puts together what the page shows of a run."""
from dataclasses import dataclass
from typing import TypeVar

from afdx import printed
from afdx.program import Progress
from afdx.view import departures, recorded
from afdx.view.answers import Answers
from afdx.view.arrivals import Clock, Fates, Policed, read_fates, read_policed
from afdx.view.bounded import Sender
from afdx.view.departures import PRIORITIES, Drawn
from afdx.view.greatest import Greatest
from afdx.view.pairs import Pair, pairs_of
from afdx.view.recorded import Recordings
from afdx.view.table import Table

POINTS = 600_000  # of all strips together; so the page stays below 20 MB
STRIPS = 20_000  # the most strips; those nearest to their bounds if there are more
STRIP_PARTS = (24, 240)  # the least and the most parts of the time in a strip
PORT_PARTS = 300  # of the picture of a port
RUN_PARTS = 600  # of the picture of the run


Timed = TypeVar("Timed", bound=Sender)  # what a strip is of


@dataclass
class Run:
    """Instants are ns after the first frame's stamp."""
    checked: bool
    needs: list[printed.Row]  # of `size`
    occupied: list[printed.Row]  # of `measure`, of ports
    pairs: list[Pair]
    fates: Fates
    clock: Clock  # that of all frames of the page
    policed: Policed
    drawn: Drawn
    parts: int  # of the time in a strip
    recordings: Recordings | None  # of another switch, if there are some

    @property
    def span(self) -> int:
        return self.clock.span

    @property
    def accepted(self) -> bool:
        return not any(need["breaks"] for need in self.needs)


def shown_of(pairs: list[Timed], checked: bool, runs: int) -> list[Timed]:
    """Returns the pairs that have a picture: those that sent, or of very many those nearest to their bounds. So many
    runs share the room of a page."""
    sent, strips = [pair for pair in pairs if pair.sent], STRIPS // runs
    if len(sent) <= strips:
        return sent
    nearest = sorted(sent, key=lambda pair: -((pair.share if checked else pair.greatest) or 0))[:strips]
    chosen = {id(pair) for pair in nearest}
    return [pair for pair in sent if id(pair) in chosen]


def parts_of(strips: int, runs: int) -> int:
    """Returns into how many parts the time is cut in so many strips, where so many runs share the room of a page."""
    least, most = STRIP_PARTS
    return max(least, min(most, POINTS // runs // max(1, strips)))


def drawn_of(pairs: list[Pair], shown: list[Pair], parts: int, span: int) -> Drawn:
    """Returns room for the points."""
    ports = {port: place for place, port in enumerate(sorted({pair.port for pair in pairs}))}
    return Drawn(shown, Greatest(len(shown), parts, span), Greatest(len(ports) * len(PRIORITIES), PORT_PARTS, span),
                 Greatest(len(PRIORITIES), RUN_PARTS, span), ports)


def read(answers: Answers, table: Table, checked: bool, progress: Progress) -> Run:
    """Reads a run. KeyError or ValueError is raised if the answers are not of this table."""
    progress.say("reading")
    fates = read_fates(answers.arrivals)
    return run_of(answers, table, checked, fates, fates.clock)


def run_of(answers: Answers, table: Table, checked: bool, fates: Fates, clock: Clock, runs: int = 1) -> Run:
    """Reads the rest of a run, one of so many on a page, which is on this clock."""
    pairs = pairs_of(answers.measured, table, fates)
    if checked and not all(pair.bound for pair in pairs):
        raise ValueError("no bound in the answers of a checked run")
    shown = shown_of(pairs, checked, runs)
    parts = parts_of(len(shown) + len(fates.policed_links()), runs)
    policed = read_policed(answers.arrivals, table, fates, clock, parts)
    drawn = drawn_of(pairs, shown, parts, clock.span)
    if clock.first is not None:
        columns = departures.columns_of(pairs, drawn, checked)
        departures.read(answers.departures, drawn, columns, clock.first + table.latency)
    recordings = recorded.read(answers.compared, pairs, shown, clock, parts) if answers.compared else None
    return Run(checked, printed.rows_of(answers.size), printed.rows_of(answers.measured, "buffer"), pairs, fates,
               clock, policed, drawn, parts, recordings)
