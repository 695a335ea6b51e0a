"""Follows each frame of a network from the port of its end system over all wires to where it leaves.

The record of a wire's end that has a number is that which has the same number at its start. So a frame at a later
switch is known by the numbers that the program gave it: `record` of a copy that left, and of a frame that came in.
"""
from collections.abc import Iterator
from dataclasses import dataclass
from typing import Any, TypeVar

import numpy

from afdx.view.arrivals import pieces
from afdx.view.greatest import Ints
from afdx.view.network.answers import NetworkAnswers
from afdx.view.network.layout import Layout, Port

PORTS = 32  # more than the numbers that a port may have
SWITCHES = 64  # the most of a network
Number = TypeVar("Number", int, Ints)


@dataclass(frozen=True)
class Frames:
    """All frames that came in at all switches, those of a switch after those of the one before it."""
    switches: list[str]
    begins: Ints  # which frame is the first of each switch
    stamps: Ints  # when each came in
    ports: Ints  # where

    def begin(self, switch: str) -> int:
        return int(self.begins[self.switches.index(switch)])


@dataclass(frozen=True)
class Delivered:
    """Copies that left the network, and the frames of end systems that they are of."""
    ways: Ints  # the number of each one's way, see `way_number`
    came: Ints  # when the frame came in at its first switch
    delays: Ints  # from then to the end of the copy


def frames_of(answers: NetworkAnswers) -> Frames:
    """Reads which frames came in."""
    begins, stamps, ports = [0], [], []
    for own in answers.switches.values():
        read = [(rows.stamp.to_numpy(numpy.int64), rows.port.to_numpy(numpy.int64))
                for rows in pieces(own.arrivals, {"stamp": "int64", "port": "int64"})]
        stamps += [stamp for stamp, _ in read]
        ports += [port for _, port in read]
        begins.append(begins[-1] + sum(len(stamp) for stamp, _ in read))
    none = numpy.zeros(0, numpy.int64)
    return Frames(list(answers.switches), numpy.array(begins, numpy.int64), numpy.concatenate([none, *stamps]),
                  numpy.concatenate([none, *ports]))


def sent(answers: NetworkAnswers, switch: str) -> Iterator[Any]:
    """Reads the copies that a switch sent, a piece at a time.

    What a discarded copy has no instant of is read as text: a whole number beside fields that are empty goes through a
    float in pandas, to the next 256 ns.
    """
    kinds = {"port": "int64", "frame": "int64", "link": "int64", "left": "str"}
    for rows in pieces(answers.switches[switch].departures, kinds):
        yield rows[rows.left.notna()].astype({"left": "int64"})


def over_wires(answers: NetworkAnswers, layout: Layout, frames: Frames) -> Iterator[tuple[Port, Ints]]:
    """Returns of each output port with a wire that is not down the frames whose copies it sent, in their order."""
    wired = layout.going_on()
    for switch in frames.switches:
        found: dict[Port, list[Ints]] = {port: [] for port in wired if port.switch == switch}
        for rows in sent(answers, switch):
            for port, parts in found.items():
                parts.append(rows.frame[rows.port == port.number].to_numpy(numpy.int64))
        for port, parts in found.items():
            yield port, numpy.concatenate([numpy.zeros(0, numpy.int64), *parts]) + frames.begin(switch)


def came_at(frames: Frames, port: Port) -> Ints:
    """Returns the frames that came in at a port, in their order."""
    place = frames.switches.index(port.switch)
    begin, end = frames.begins[place:place + 2]
    found: Ints = numpy.flatnonzero(frames.ports[begin:end] == port.number) + begin
    return found


def origins_of(answers: NetworkAnswers, layout: Layout, frames: Frames) -> Ints:
    """Returns of each frame that which an end system sent. ValueError is raised if the switches' answers do not fit
    together."""
    wired = layout.going_on()
    before = numpy.arange(len(frames.stamps))
    for port, left in over_wires(answers, layout, frames):
        came = came_at(frames, wired[port].end)
        if len(came) != len(left):
            raise ValueError(f"{len(left)} frames left at {port}, and {len(came)} came")
        before[came] = left
    return roots_of(before)


def roots_of(before: Ints) -> Ints:
    """Returns where one comes to from each place, if one goes to that before it as long as it is another one."""
    while not numpy.array_equal(further := before[before], before):
        before = further
    return before


def way_number(link: Number, start: Number, port: Number, end: Number, last: Number) -> Number:
    """Gives a way its number: by its link, the places of its first and its last switch, and a port of each."""
    return (((link * SWITCHES + start) * PORTS + port) * SWITCHES + end) * PORTS + last


def way_of(frames: Frames, number: int) -> tuple[int, Port, Port]:
    """Returns link, start and end of a way of this number."""
    number, last = divmod(number, PORTS)
    number, end = divmod(number, SWITCHES)
    number, port = divmod(number, PORTS)
    link, start = divmod(number, SWITCHES)
    return link, Port(frames.switches[start], port), Port(frames.switches[end], last)


def delivered(answers: NetworkAnswers, layout: Layout, frames: Frames, origins: Ints) -> Iterator[Delivered]:
    """Reads the copies that left the network, a piece at a time."""
    wired = layout.out_of()
    for place, switch in enumerate(frames.switches):
        inner = [port.number for port in wired if port.switch == switch]
        for rows in sent(answers, switch):
            own = rows[~rows.port.isin(inner)]
            first = origins[own.frame.to_numpy(numpy.int64) + frames.begins[place]]
            start: Ints = numpy.searchsorted(frames.begins, first, side="right") - 1
            link, last, left = (own[name].to_numpy(numpy.int64) for name in ("link", "port", "left"))
            numbers = way_number(link, start, frames.ports[first], numpy.full_like(last, place), last)
            yield Delivered(numbers, frames.stamps[first], left - frames.stamps[first])
