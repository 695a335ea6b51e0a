"""Puts together what the page shows of a run of a network."""
from collections import Counter
from collections.abc import Iterable
from dataclasses import dataclass

from afdx import printed
from afdx.program import Progress
from afdx.view.arrivals import Clock, Fates, read_fates
from afdx.view.network import following, ways
from afdx.view.network.answers import NetworkAnswers, SizedNetwork
from afdx.view.network.layout import Port, Wire
from afdx.view.network.ways import DrawnWays, LostEnd, Way
from afdx.view.run import Run, run_of


@dataclass(frozen=True)
class Load:
    """What the links ask of an output port, and what it carried."""
    port: Port
    wire: Wire | None
    rate: int  # parts of `limit`
    limit: int
    buffer: int  # bytes, as `has` and `held`
    has: int
    held: int  # the most in this run
    sent: int

    @property
    def share(self) -> float:
        return self.rate / self.limit


@dataclass(frozen=True)
class Totals:
    """Counts over a whole network."""
    frames: int  # from end systems
    sent: int  # copies to end systems
    lost: int  # at all switches
    policed: int


@dataclass(frozen=True)
class NetworkRun:
    """Instants are ns after the first frame's stamp."""
    asked: SizedNetwork
    totals: Totals
    runs: dict[str, Run]
    loads: list[Load]  # of all output ports to which links lead
    ways: list[Way]
    lost: list[LostEnd]
    drawn: DrawnWays
    first: int | None  # the first frame's stamp
    span: int


def totals_of(asked: SizedNetwork, report: str) -> Totals:
    into, out_of = asked.layout.into(), asked.layout.out_of()
    came, copies = printed.rows_of(report, "in"), printed.rows_of(report, "out")
    frames = sum(int(row["seen"]) for row in came if Port(row["switch"], int(row["port"])) not in into)
    sent = sum(int(row["sent"]) for row in copies if Port(row["switch"], int(row["port"])) not in out_of)
    lost = sum(int(row["full"]) + int(row["aged"]) for row in copies)
    policed = sum(int(row["policed"]) for row in printed.rows_of(report, "link"))
    return Totals(frames, sent, lost, policed)


def loads_of(asked: SizedNetwork, runs: dict[str, Run], report: str) -> list[Load]:
    """Returns the loads of the ports that have links, in the order of the network file."""
    sent: Counter[Port] = Counter()
    for row in printed.rows_of(report, "out"):
        sent[Port(row["switch"], int(row["port"]))] += int(row["sent"])
    wired, loads = asked.layout.out_of(), []
    for switch, run in runs.items():
        held = {row["port"]: int(row["occupied"]) for row in run.occupied}
        for need in run.needs:
            port = Port(switch, int(need["port"]))
            rate, limit, buffer, has = (int(need[name]) for name in ("rate", "rate_limit", "buffer", "buffer_limit"))
            loads.append(Load(port, wired.get(port), rate, limit, buffer, has, held[need["port"]], sent[port]))
    return loads


def clock_of(switches: Iterable[Fates]) -> Clock:
    """Returns the clock from the network's first frame to its last."""
    clocks = [fates.clock for fates in switches]
    return Clock(min((clock.first for clock in clocks if clock.first is not None), default=None),
                 max((clock.last for clock in clocks if clock.last is not None), default=None))


def count_policed(found: list[Way], report: str) -> None:
    """Tells each way what became of its link's frames at the first switch."""
    rows = {(row["switch"], int(row["link"])): row for row in printed.rows_of(report, "link")}
    for way in found:
        row = rows[way.start.switch, way.link]
        way.passed, way.policed = int(row["passed"]), int(row["policed"])


def read(asked: SizedNetwork, answers: NetworkAnswers, progress: Progress) -> NetworkRun:
    """Reads a run of a network. KeyError or ValueError is raised if the answers do not fit together."""
    fates = {}
    for switch, own in answers.switches.items():
        progress.say(f"reading what came to {switch}")
        fates[switch] = read_fates(own.arrivals)
    clock, many, runs = clock_of(fates.values()), len(fates) + 1, {}
    for switch, own in answers.switches.items():
        progress.say(f"reading what left {switch}")
        here = Clock() if fates[switch].clock.first is None else clock
        runs[switch] = run_of(own, asked.tables[switch], asked.checked, fates[switch], here, many)
    progress.say("following frames")
    frames = following.frames_of(answers)
    origins = following.origins_of(answers, asked.layout, frames)
    measured = ways.measured_of(following.delivered(answers, asked.layout, frames, origins))
    found = ways.ways_of(asked, frames, measured)
    count_policed(found, answers.report)
    drawing = ways.Drawing(found, frames, asked.checked, clock.first or 0, clock.span, many)
    for copies in following.delivered(answers, asked.layout, frames, origins):
        drawing.add(copies)
    return NetworkRun(asked, totals_of(asked, answers.report), runs, loads_of(asked, runs, answers.report), found,
                      ways.lost_ends(asked), drawing.drawn, clock.first, clock.span)
