"""Finds when links babbled.

A spell of babbling begins with a policed frame. It ends when the sender has kept to its allowance again for one gap of
the link, so its last policed frame is the one before such a time.
"""
from dataclasses import dataclass, field

import numpy

from afdx.view.greatest import Cover, Floats, Ints

SHOWN = 8  # spells of a link of which the page shows begin and end


@dataclass
class Spell:
    """Its first and its last policed frame, and how many there are."""
    begin: int
    end: int
    frames: int


@dataclass
class Babbling:
    """Keeps when one link was policed. Instants are ns after the first frame."""
    gap: int  # ns
    spells: list[Spell] = field(default_factory=list)  # the first ones
    count: int = 0  # of all spells
    frames: int = 0
    begin: int = 0
    end: int = 0
    least: int = 0  # ns too early
    greatest: int = 0

    def add(self, instants: Ints, early: Floats) -> tuple[Ints, Ints]:
        """Adds policed frames, one at least, in their order; returns the stretches by which the spells have grown."""
        least, greatest = int(early.min()), int(early.max())
        if self.frames == 0:
            self.begin = int(instants[0])
            self.end = self.begin - self.gap - 1
            self.least = least
        self.least, self.greatest = min(self.least, least), max(self.greatest, greatest)
        before: Ints = numpy.concatenate((numpy.array([self.end], numpy.int64), instants[:-1]))
        parted = instants - before > self.gap
        self.keep(instants, numpy.flatnonzero(parted))
        self.count += int(parted.sum())
        self.frames += len(instants)
        self.end = int(instants[-1])
        return numpy.where(parted, instants, before), instants

    def keep(self, instants: Ints, begins: Ints) -> None:
        """Keeps those of the first spells that go on or begin here."""
        room = SHOWN - len(self.spells)
        going_on, *begun = numpy.split(instants, begins[:room + 1])
        if len(going_on) and self.count <= SHOWN:
            self.spells[-1].end = int(going_on[-1])
            self.spells[-1].frames += len(going_on)
        self.spells += [Spell(int(own[0]), int(own[-1]), len(own)) for own in begun[:room]]


class Spells:
    """Keeps when each link was policed, and which parts of the time the babbling of some links covers."""

    def __init__(self, gaps: dict[int, int], covering: list[int], cover: Cover) -> None:
        self.by_link: dict[int, Babbling] = {}
        self.gaps = gaps
        self.covering = set(covering)
        self.cover = cover

    def add(self, links: Ints, instants: Ints, early: Floats) -> None:
        """Adds policed frames, in their order."""
        order = numpy.argsort(links, kind="stable")
        numbers, begins = numpy.unique(links[order], return_index=True)
        for number, own in zip(numbers.tolist(), numpy.split(order, begins[1:])):
            babbling = self.by_link.setdefault(number, Babbling(self.gaps[number]))
            stretches = babbling.add(instants[own], early[own])
            if number in self.covering:
                self.cover.add(*stretches)
