"""Reads the copies that left, a piece of the file at a time, into the points that are drawn."""
from collections.abc import Sequence
from dataclasses import dataclass
from pathlib import Path
from typing import Any

import numpy

from afdx.view.arrivals import LINKS, pieces
from afdx.view.greatest import Floats, Greatest, Ints
from afdx.view.pairs import Pair

PRIORITIES = ("high", "low")


@dataclass
class Drawn:
    """What is drawn of the delays; instants are those of the frames' stamps."""
    shown: list[Pair]  # those that have a picture of their own
    links: Greatest  # delays, by place in `shown`
    ports: Greatest  # delays, by `port_group`
    run: Greatest  # of all ports, which part of its bound a copy took, or its delay, by place in PRIORITIES
    places: dict[int, int]  # of the ports in `ports`

    def port_group(self, port: int, priority: str) -> int:
        return self.places[port] * len(PRIORITIES) + PRIORITIES.index(priority)


@dataclass(frozen=True)
class Columns:
    """Keeps of all pairs, in the order of `keys`, where each one's copies are drawn."""
    keys: Ints  # port and link in one number
    pairs: list[Pair]
    shown: Ints  # place among those shown, or -1
    ports: Ints  # group of the port's picture
    priorities: Ints
    scales: Floats  # what a delay is a part of in the picture of the run
    sent: Ints  # how many copies were, so far


def columns_of(pairs: Sequence[Pair], drawn: Drawn, checked: bool) -> Columns:
    ordered = sorted(pairs, key=lambda pair: (pair.port, pair.link))
    shown = {id(pair): place for place, pair in enumerate(drawn.shown)}
    return Columns(
        numpy.array([pair.port * LINKS + pair.link for pair in ordered], numpy.int64), ordered,
        numpy.array([shown.get(id(pair), -1) for pair in ordered], numpy.int64),
        numpy.array([drawn.port_group(pair.port, pair.priority) for pair in ordered], numpy.int64),
        numpy.array([PRIORITIES.index(pair.priority) for pair in ordered], numpy.int64),
        numpy.array([pair.bound if checked else 1 for pair in ordered], numpy.float64),
        numpy.zeros(len(ordered), numpy.int64))


def add(drawn: Drawn, columns: Columns, rows: Any, first: int) -> None:
    """Adds copies; `first` is when a copy of the first frame is queued."""
    keys = rows.port.to_numpy(numpy.int64) * LINKS + rows.link.to_numpy(numpy.int64)
    own = numpy.searchsorted(columns.keys, keys)
    if not numpy.array_equal(columns.keys[numpy.minimum(own, len(columns.keys) - 1)], keys):
        raise ValueError("a copy of a link that the port has not")
    delays: Floats = rows.delay.to_numpy(numpy.float64)
    sent = ~numpy.isnan(delays)
    for place, many in zip(*numpy.unique(own[~sent], return_counts=True)):
        columns.pairs[place].aged += int(many)
    own, delays = own[sent], delays[sent]
    columns.sent[:] += numpy.bincount(own, minlength=len(columns.sent))
    instants = rows.came.to_numpy(numpy.int64)[sent] - first
    drawn.ports.add(columns.ports[own], instants, delays)
    drawn.run.add(columns.priorities[own], instants, delays / columns.scales[own])
    shown = columns.shown[own] >= 0
    drawn.links.add(columns.shown[own][shown], instants[shown], delays[shown])


def read(path: Path, drawn: Drawn, columns: Columns, first: int) -> None:
    kinds = {"port": "int64", "link": "int64", "came": "int64", "delay": "float64"}
    for rows in pieces(path, kinds):
        add(drawn, columns, rows, first)
    for pair, many in zip(columns.pairs, columns.sent.tolist()):
        pair.traced = many
