"""Reads the frames that came in, a piece of the file at a time, so that memory is for what is drawn and not for all."""
from collections import Counter
from collections.abc import Iterator
from dataclasses import dataclass
from pathlib import Path
from typing import Any

import numpy
import pandas

from afdx.view.greatest import Cover, Floats, Greatest, Ints
from afdx.view.spells import Babbling, Spells
from afdx.view.table import Table

ROWS = 250_000  # of a piece
LINKS = 65_536  # numbers that a link may have
COVER = 1000  # parts of the time of the first picture's shade
WATCHED = 12  # the links with most policed frames, which the first picture has


def pieces(path: Path, kinds: dict[str, str]) -> Iterator[Any]:
    """Reads the columns of these kinds, so many rows at a time, as tables of pandas."""
    with pandas.read_csv(path, usecols=list(kinds), dtype=kinds, chunksize=ROWS) as reader:
        yield from (rows for rows in reader if len(rows))


@dataclass(frozen=True)
class Clock:
    """The stamps of the first frame and of the last one, in ns; None if no frame came in."""
    first: int | None = None
    last: int | None = None

    @property
    def span(self) -> int:
        """Returns the time from the first frame to the last one; 1 ns if there is no such time."""
        return max(1, self.last - self.first) if self.first is not None and self.last is not None else 1


class Fates:
    """Counts what became of the frames."""

    def __init__(self) -> None:
        self.clock = Clock()
        self.many: Counter[str] = Counter()
        self.by_link = {fate: numpy.zeros(LINKS, numpy.int64) for fate in ("passed", "policed")}
        self.full: Counter[tuple[int, int]] = Counter()  # copies that found a full buffer, by link and port

    def add(self, rows: Any) -> None:
        first = int(rows.stamp.iloc[0]) if self.clock.first is None else self.clock.first
        self.clock = Clock(first, int(rows.stamp.iloc[-1]))
        self.many.update({str(fate): int(many) for fate, many in rows.fate.value_counts().items()})
        for fate, counts in self.by_link.items():
            counts += numpy.bincount(rows.link[rows.fate == fate].to_numpy(numpy.int64), minlength=LINKS)
        refused = rows[rows.full.notna()]
        if len(refused):
            ports = refused.full.str.split(";").explode().astype("int64")
            self.full.update(zip(refused.link.astype("int64").loc[ports.index].tolist(), ports.tolist()))

    def policed_links(self) -> list[int]:
        return [int(link) for link in numpy.flatnonzero(self.by_link["policed"])]


def read_fates(path: Path) -> Fates:
    fates = Fates()
    for rows in pieces(path, {"stamp": "int64", "link": "float64", "fate": "category", "full": "str"}):
        fates.add(rows)
    return fates


@dataclass
class Policed:
    """When links were policed, and what is drawn of it."""
    links: list[int]
    watched: list[int]  # of the first picture
    spells: dict[int, Babbling]
    cover: Cover  # when the watched ones babbled
    early: Greatest  # how early policed frames were, by place in `links`
    passed: Greatest  # when frames were passed, by the same


def add_points(policed: Policed, spells: Spells, rows: Any, first: int) -> None:
    """Adds the frames of policed links that were passed or policed."""
    own = rows[rows.fate.isin(["passed", "policed"]) & rows.link.isin(policed.links)]
    links: Ints = own.link.to_numpy(numpy.int64)
    instants: Ints = own.stamp.to_numpy(numpy.int64) - first
    early: Floats = own.early.to_numpy(numpy.float64)
    groups = numpy.searchsorted(numpy.array(policed.links, numpy.int64), links)
    excess = (own.fate == "policed").to_numpy(bool)
    spells.add(links[excess], instants[excess], early[excess])
    policed.early.add(groups[excess], instants[excess], early[excess])
    policed.passed.add(groups[~excess], instants[~excess], instants[~excess].astype(numpy.float64))


def read_policed(path: Path, table: Table, fates: Fates, clock: Clock, parts: int) -> Policed:
    """Reads the frames once more, if any was policed, for the links of which that is known now."""
    links = fates.policed_links()
    watched = sorted(sorted(links, key=lambda link: (-fates.by_link["policed"][link], link))[:WATCHED])
    cover = Cover(COVER, clock.span)
    spells = Spells({link: table.links[link].gap for link in links}, watched, cover)
    policed = Policed(links, watched, spells.by_link, cover,
                      *(Greatest(len(links), parts, clock.span) for _ in range(2)))
    if links and clock.first is not None:
        for rows in pieces(path, {"stamp": "int64", "link": "float64", "fate": "category", "early": "float64"}):
            add_points(policed, spells, rows, clock.first)
    return policed
