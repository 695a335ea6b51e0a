"""Keeps of each way of a link through a network what became of its frames."""
from collections.abc import Iterable
from dataclasses import dataclass

import numpy

from afdx import printed
from afdx.view.bounded import Sender
from afdx.view.departures import PRIORITIES
from afdx.view.greatest import Floats, Greatest, Ints
from afdx.view.network.answers import SizedNetwork
from afdx.view.network.following import Delivered, Frames, way_number, way_of
from afdx.view.network.layout import Port, port_of
from afdx.view.run import RUN_PARTS, parts_of, shown_of

NONE = 2**63 - 1


@dataclass
class Way(Sender):
    """A link from the port of an end system to one at which it leaves the network. Times are in ns."""
    link: int
    start: Port
    end: Port
    priority: str  # at the last switch
    ports: list[Port]  # the output ports on the way; none are known if the network is refused
    jitters: list[int]  # us, that the link needs at the switches of the way
    floor: int | None  # the least that a frame may take; None where nothing is promised
    bound: int | None
    passed: int = 0  # at the first switch
    policed: int = 0
    sent: int = 0
    least: int | None = None  # None where nothing was sent
    greatest: int | None = None


@dataclass(frozen=True)
class LostEnd:
    """An end of a link that gets nothing, as something on the way to it is down."""
    link: int
    end: Port


class Measured:
    """Counts the frames of each way, by its number, and keeps their least and their greatest delay."""

    def __init__(self) -> None:
        self.numbers: Ints = numpy.zeros(0, numpy.int64)  # in order
        self.sent: Ints = numpy.zeros(0, numpy.int64)
        self.least: Ints = numpy.zeros(0, numpy.int64)
        self.greatest: Ints = numpy.zeros(0, numpy.int64)

    def add(self, copies: Delivered) -> None:
        numbers: Ints = numpy.union1d(self.numbers, copies.ways)
        before, own = numpy.searchsorted(numbers, self.numbers), numpy.searchsorted(numbers, copies.ways)
        sent = numpy.bincount(own, minlength=len(numbers))
        least, greatest = numpy.full(len(numbers), NONE), numpy.full(len(numbers), -1)
        sent[before] += self.sent
        least[before], greatest[before] = self.least, self.greatest
        numpy.minimum.at(least, own, copies.delays)
        numpy.maximum.at(greatest, own, copies.delays)
        self.numbers, self.sent, self.least, self.greatest = numbers, sent, least, greatest


def measured_of(deliveries: Iterable[Delivered]) -> Measured:
    measured = Measured()
    for copies in deliveries:
        measured.add(copies)
    return measured


def checked_ways(asked: SizedNetwork) -> list[Way]:
    """Returns the ways that `check` printed, but for those over which nothing comes."""
    ways = []
    for row in printed.rows_of(asked.said):
        if not row["ways"]:
            continue
        start, end, link = port_of(row["from"]), port_of(row["to"]), int(row["link"])
        floor, bound = (int(row["least"]), int(row["most"])) if asked.checked else (None, None)
        ways.append(Way(link, start, end, asked.tables[end.switch].links[link].priority,
                        [port_of(port) for port in row["ways"].split(";")],
                        [int(jitter) for jitter in row["jitter"].split(";")], floor, bound))
    return ways


def lost_ends(asked: SizedNetwork) -> list[LostEnd]:
    """Returns the ends that get nothing: their rows have no way."""
    return [LostEnd(int(row["link"]), port_of(row["to"])) for row in printed.rows_of(asked.said) if not row["ways"]]


def seen_ways(asked: SizedNetwork, frames: Frames, measured: Measured) -> list[Way]:
    """Returns the ways that frames took."""
    found = (way_of(frames, int(number)) for number in measured.numbers)
    return [Way(link, start, end, asked.tables[end.switch].links[link].priority, [], [], None, None)
            for link, start, end in found]


def number_of(frames: Frames, way: Way) -> int:
    start, end = frames.switches.index(way.start.switch), frames.switches.index(way.end.switch)
    return way_number(way.link, start, way.start.number, end, way.end.number)


def ways_of(asked: SizedNetwork, frames: Frames, measured: Measured) -> list[Way]:
    """Returns all ways with what was measured of them. ValueError is raised if a frame took another way than those that
    the program knows."""
    ways = seen_ways(asked, frames, measured) if asked.refused else checked_ways(asked)
    by_number = {number_of(frames, way): way for way in ways}
    for number, sent, least, greatest in zip(*(column.tolist() for column in (
            measured.numbers, measured.sent, measured.least, measured.greatest))):
        if number not in by_number:
            raise ValueError(f"a frame on a way that is none: {way_of(frames, number)}")
        way = by_number[number]
        way.sent, way.least, way.greatest = sent, least, greatest
    return ways


@dataclass(frozen=True)
class DrawnWays:
    """What is drawn of the ways; instants are those of the frames' stamps at their first switches."""
    shown: list[Way]  # those that have a picture of their own
    strips: Greatest  # delays, by place in `shown`
    run: Greatest  # which part of its bound a frame took, or its delay, by place in PRIORITIES
    parts: int  # of the time in a strip


class Drawing:
    """Keeps of the copies that left the network what is drawn."""

    def __init__(self, ways: list[Way], frames: Frames, checked: bool, first: int, span: int, runs: int) -> None:
        shown = shown_of(ways, checked, runs)
        parts = parts_of(len(shown), runs)
        self.first = first
        self.drawn = DrawnWays(shown, Greatest(len(shown), parts, span),
                               Greatest(len(PRIORITIES), RUN_PARTS, span), parts)
        places = {id(way): place for place, way in enumerate(shown)}
        rows = sorted((number_of(frames, way), places.get(id(way), -1), PRIORITIES.index(way.priority),
                       way.bound or 1) for way in ways)
        columns = numpy.array(rows, numpy.int64).reshape(-1, 4)
        self.numbers, self.places, self.priorities, self.bounds = (columns[:, place] for place in range(4))

    def add(self, copies: Delivered) -> None:
        own, instants = numpy.searchsorted(self.numbers, copies.ways), copies.came - self.first
        delays: Floats = copies.delays.astype(numpy.float64)
        self.drawn.run.add(self.priorities[own], instants, delays / self.bounds[own])
        shown = self.places[own] >= 0
        self.drawn.strips.add(self.places[own][shown], instants[shown], delays[shown])
