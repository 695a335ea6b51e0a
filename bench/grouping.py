#!/usr/bin/env python3
"""Compares the bounds of ways with those of network calculus hop by hop, with and without grouping, on a made-up network.

The network is always the same: eight switches at the corners of a cube, a cable along each edge, so that ways go over up to four
switches; fifteen end systems at each; all lines of 100 Mbit/s; links of one priority whose senders have 500 us of jitter. Each analysis
finds its own jitters, in whole us, however large they become. All numbers are those of end_to_end/model.py, exact:

- ours: lines to which a wire goes are groups, links are policed by bytes or by frames; with end systems' lines these are groups too, by
  stamps that are rounded down by 999 ns at most;
- network calculus: a link is a bucket of one frame of its greatest size in each gap, with its jitter, so that it is a link that is
  policed by frames; with grouping the lines of end systems are groups too, without it no line is.
"""
import argparse
import sys
from collections.abc import Callable
from dataclasses import dataclass
from pathlib import Path
from random import Random
from statistics import mean

sys.path.append(str(Path(__file__).resolve().parents[1] / "end_to_end"))

import model  # noqa: E402

SWITCHES = 8
CABLES = 3  # of each switch, at its ports 1 to 3: port K leads to the corner that differs in bit K - 1
END_SYSTEMS = 15  # of each switch, at its ports 4 to 18
TICK = 80  # ns of a byte at 100 Mbit/s
LATENCY = 16_000  # ns, at least and at most
JITTER = 500_000  # ns, of a sender
MILLISECOND, MICROSECOND = 1_000_000, 1000
LEAST = (64 + model.LINE_OVERHEAD) * TICK + LATENCY  # ns of a hop
LIMIT = 10_000  # us of jitter that a table can have
Port = tuple[int, int]  # a switch and one of its ports
Lined = Callable[[model.Port], int | None]  # by how many ns stamps at an ingress port may be rounded down; None where it is no group
ROUNDING = 999  # ns, of what end systems' ports captured


@dataclass
class Link:
    """A link and its ways: of each the output ports, from the first switch to the last."""

    number: int
    source: int  # the ingress port at the first switch
    bag: int  # ns
    size: int
    ways: list[list[Port]]


def way(start: int, end: int, port: int) -> list[Port]:
    """Returns the output ports from a switch to an end system of another: along the edges, bit by bit."""
    ports: list[Port] = []
    at = start
    for cable in range(CABLES):
        if (at ^ end) >> cable & 1:
            ports.append((at, cable + 1))
            at ^= 1 << cable
    return [*ports, (end, port)]


def draw_links(count: int) -> list[Link]:
    """Draws so many links, each of which goes from one end system to one or more others."""
    chance, links = Random(1), []
    lines = [(switch, CABLES + 1 + number) for switch in range(SWITCHES) for number in range(END_SYSTEMS)]
    for number in range(count):
        start = chance.choice(lines)
        ends = chance.sample([line for line in lines if line != start], chance.choice([1, 2, 4, 6, 8, 12]))
        bag = MILLISECOND * chance.choice([16, 32, 32, 64, 64, 128, 128])
        ways = [way(start[0], *end) for end in ends]
        links.append(Link(number, start[1], bag, chance.choice([84, 150, 300, 500, 900]), ways))
    return links


def rows_of(link: Link) -> dict[int, list[Port]]:
    """Returns, for each switch that the link crosses, the output ports before it."""
    return {port[0]: ports[:place] for ports in link.ways for place, port in enumerate(ports)}


def source_at(link: Link, before: list[Port]) -> int:
    """Returns the ingress port at the switch behind these output ports: the cable's number is the same at both its ends."""
    return before[-1][1] if before else link.source


class Analysis:
    """The jitters and the bounds of a network, by one kind of policing and with these lines as groups."""

    def __init__(self, links: list[Link], police: str, lined: Lined) -> None:
        self.links, self.lined = links, lined
        ports = [model.Port(number, TICK, 0, 0, LATENCY) for number in range(1, CABLES + END_SYSTEMS + 1)]
        self.tables = [model.Table(bytes(4), ports, [], LATENCY) for _ in range(SWITCHES)]
        self.rows: list[tuple[model.Link, list[Port]]] = []
        for link in links:
            for switch, before in rows_of(link).items():
                to = sorted({port for ports in link.ways for at, port in ports if at == switch})
                row = model.Link(link.number, source_at(link, before), to, link.bag, JITTER, link.size, "low", police)
                self.tables[switch].links.append(row)
                self.rows.append((row, before))
        self.bounds: dict[Port, int] = {}

    def reckon(self) -> None:
        """Sets the bounds of all ports, by the jitters that there are."""
        for switch, table in enumerate(self.tables):
            known = ((port.id, self.lined(port)) for port in table.ports)
            lines = {number: rounding for number, rounding in known if rounding is not None}
            for port in table.ports:
                _, low = model.bounds_of(table, port, *model.lesser_bursts(table, port, lines))
                if low is not None:
                    self.bounds[switch, port.id] = low

    def solve(self) -> None:
        """Finds the least jitters that are enough, from the senders' own on."""
        changed = True
        while changed:
            self.reckon()
            changed = False
            for row, before in self.rows:
                need = -(-(JITTER + sum(self.bounds[port] - LEAST for port in before)) // MICROSECOND) * MICROSECOND
                changed, row.jitter = changed or need != row.jitter, need

    def sums(self) -> list[int]:
        """Returns the bound of each way from end to end, in ns."""
        return [sum(self.bounds[port] for port in ports) for link in self.links for ports in link.ways]


def solved(links: list[Link], police: str, lined: Lined) -> Analysis:
    analysis = Analysis(links, police, lined)
    analysis.solve()
    return analysis


def at_wires(port: model.Port) -> int | None:
    return 0 if port.id <= CABLES else None


def one_line(port: model.Port) -> int | None:
    return 0 if port.id <= CABLES else ROUNDING


def everywhere(port: model.Port) -> int | None:
    return 0


def nowhere(port: model.Port) -> int | None:
    return None


def ratio(ours: list[int], theirs: list[int]) -> str:
    """Returns the mean and the greatest of ours over theirs."""
    ratios = [one / other for one, other in zip(ours, theirs)]
    return f"{mean(ratios):.2f} ({max(ratios):.2f})"


def said_of(links: list[Link]) -> str:
    """Says how large the network is, and how busy its busiest line."""
    ways = [ports for link in links for ports in link.ways]
    taken: dict[Port, float] = {}
    for link in links:
        for port in {port for ports in link.ways for port in ports}:
            taken[port] = taken.get(port, 0) + (link.size + model.LINE_OVERHEAD) * TICK / link.bag
    return (f"{len(links)} links, {len(ways)} ways over up to {max(map(len, ways))} switches, "
            f"the busiest line taken to {100 * max(taken.values()):.0f} %")


def main() -> None:
    parser = argparse.ArgumentParser(description=__doc__, formatter_class=argparse.RawDescriptionHelpFormatter)
    parser.add_argument("links", type=int, nargs="?", default=1000, help="how many; 1000 if none are named")
    links = draw_links(parser.parse_args().links)
    print(said_of(links), flush=True)
    ours = {police: solved(links, police, at_wires) for police in model.POLICINGS}
    ours |= {f"{police} with end systems' lines": solved(links, police, one_line) for police in model.POLICINGS}
    theirs = {"without grouping": solved(links, "frame", nowhere), "with grouping": solved(links, "frame", everywhere)}
    for name, other in theirs.items():
        print(f"ours over network calculus {name}: " +
              ", ".join(f"{police} {ratio(analysis.sums(), other.sums())}" for police, analysis in ours.items()), flush=True)
    without = {police: solved(links, police, nowhere) for police in model.POLICINGS}
    print("ours over ours without grouping: " +
          ", ".join(f"{name} {ratio(analysis.sums(), without[name.split()[0]].sums())}" for name, analysis in ours.items()))
    for name, analysis in [*ours.items(), *theirs.items()]:
        needs = [row.jitter // MICROSECOND for row, _ in analysis.rows]
        print(f"{name}: greatest sum {max(analysis.sums())} ns, greatest jitter {max(needs)} us, "
              f"{sum(need > LIMIT for need in needs)} of {len(needs)} rows past {LIMIT} us")


if __name__ == "__main__":
    main()
