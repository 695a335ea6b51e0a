"""Keeps of many points those that a picture can show."""
import numpy
from numpy.typing import NDArray

Ints = NDArray[numpy.int64]
Floats = NDArray[numpy.float64]


def part_of(instants: Ints, parts: int, span: int) -> Ints:
    """Returns in which of so many equal parts of the time each instant is, from 0 to `span`."""
    part: Ints = (instants * (parts / (span + 1))).astype(numpy.int64)
    return numpy.minimum(part, parts - 1)  # to which the last instants of a very long time are rounded up


class Greatest:
    """Keeps of each group's points, in each of so many equal parts of the time, the greatest and its instant; of equal
    ones the one that came first."""

    def __init__(self, groups: int, parts: int, span: int) -> None:
        self.parts = parts
        self.span = span
        self.values = numpy.full(groups * parts, -1.0)  # less than any value
        self.instants = numpy.zeros(groups * parts, numpy.int64)

    def add(self, groups: Ints, instants: Ints, values: Floats) -> None:
        """Adds points, with the number of each one's group; instants are from 0 to `span`, values 0 or more."""
        places = groups * self.parts + part_of(instants, self.parts, self.span)
        before = self.values[places]
        numpy.maximum.at(self.values, places, values)
        best = (values == self.values[places]) & (values > before)
        # of a place that is there twice the last one is taken
        self.instants[places[best][::-1]] = instants[best][::-1]

    def points(self, group: int) -> tuple[Ints, Floats]:
        """Returns the instants of a group's points, in order, and their values."""
        own = slice(group * self.parts, (group + 1) * self.parts)
        there = self.values[own] >= 0
        return self.instants[own][there], self.values[own][there]


class Cover:
    """Keeps which of so many equal parts of the time were touched by any of many stretches."""

    def __init__(self, parts: int, span: int) -> None:
        self.parts = parts
        self.span = span
        self.edges = numpy.zeros(parts + 1, numpy.int64)

    def add(self, begins: Ints, ends: Ints) -> None:
        """Adds stretches from their first to their last instants."""
        first, last = (part_of(instants, self.parts, self.span) for instants in (begins, ends))
        self.edges += numpy.bincount(first, minlength=self.parts + 1)
        self.edges -= numpy.bincount(last + 1, minlength=self.parts + 1)

    def ranges(self) -> list[tuple[float, float]]:
        """Returns where each run of touched parts begins and ends, as instants."""
        touched = numpy.cumsum(self.edges) > 0
        turns = numpy.flatnonzero(numpy.diff(touched, prepend=False, append=False))
        return [(begin * self.span / self.parts, end * self.span / self.parts)
                for begin, end in turns.reshape(-1, 2).tolist()]
