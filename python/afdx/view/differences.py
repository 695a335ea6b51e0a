"""Reads the differences that `afdx compare` found, a piece of the file at a time, into what the page shows of them."""
from collections import Counter
from collections.abc import Sequence
from dataclasses import dataclass
from pathlib import Path
from typing import Any

import numpy

from afdx import printed
from afdx.view.arrivals import LINKS, pieces
from afdx.view.greatest import Greatest, Ints
from afdx.view.pairs import Pair

KINDS = ("missing", "extra", "early", "late", "foreign")
SHOWN = 50  # differences of a port of which the page has a row, the first ones
PARTS = 200  # of the time in the picture of all differences
COLUMNS = {"port": "int64", **dict.fromkeys(
    ("link", "kind", "record_in", "stamp_in", "record_out", "stamp_out", "delay", "bound"), "str")}


@dataclass(frozen=True)
class Difference:
    """A record that ought not to have left so, or a frame that ought to have left; numbers are None where there is
    none."""
    port: int
    link: int | None
    kind: str
    stamp: int  # ns after 1970 by the clock of the frames that came in: of a missing frame, else of the record
    came: int | None  # number of the frame's record
    left: int | None
    delay: int | None  # ns
    bound: int | None


@dataclass(frozen=True)
class Times:
    """Where differences are drawn. Instants are ns after 1970."""
    begin: int  # of the picture of all
    end: int
    first: int  # where the links' pictures begin
    span: int  # ns in them
    parts: int  # of the time in them


class Differences:
    """Counts differences, and keeps of them what is shown."""

    def __init__(self, ports: Sequence[int], shown: Sequence[Pair], offsets: dict[int, int], times: Times) -> None:
        """Makes room for the differences at these ports, some of whose links have pictures; `offsets` are in ns, by
        port."""
        self.ports = list(ports)
        self.offsets = offsets
        self.times = times
        self.many: Counter[tuple[int, str]] = Counter()  # by port and kind
        self.rows: dict[int, list[Difference]] = {port: [] for port in ports}  # the first of each port
        self.marks = Greatest(len(ports) * len(KINDS), PARTS, max(1, times.end - times.begin))
        self.ticks = Greatest(len(shown), times.parts, times.span)  # by place in `shown`
        self.places = {pair.port * LINKS + pair.link: number for number, pair in enumerate(shown)}

    def group(self, port: int, kind: str) -> int:
        """Returns the number of a port's marks of a kind."""
        return self.ports.index(port) * len(KINDS) + KINDS.index(kind)

    def add(self, rows: Any) -> None:
        """Adds differences. ValueError is raised if they are not of these ports, or of other kinds."""
        stamps = stamps_of(rows, self.offsets)
        many = rows.groupby(["port", "kind"]).size()
        self.many.update({(int(port), str(kind)): int(number) for (port, kind), number in many.items()})
        self.keep(rows, stamps)
        self.mark(rows, stamps)
        linked = rows.link.notna().to_numpy()
        self.tick(rows[linked], stamps[linked])

    def mark(self, rows: Any, stamps: Ints) -> None:
        """Marks differences in the picture of all."""
        groups = {pair: self.group(*pair) for pair in self.many}
        own = numpy.array([groups[pair] for pair in zip(rows.port, rows.kind)], numpy.int64)
        instants = numpy.clip(stamps - self.times.begin, 0, self.marks.span)
        self.marks.add(own, instants, numpy.zeros(len(rows)))

    def tick(self, rows: Any, stamps: Ints) -> None:
        """Marks differences of links in the pictures of these."""
        places = (rows.port * LINKS + rows.link.astype("int64")).map(self.places)
        drawn = places.notna().to_numpy()
        instants = numpy.clip(stamps - self.times.first, 0, self.times.span)[drawn]
        self.ticks.add(places[drawn].to_numpy(numpy.int64), instants, numpy.zeros(len(instants)))

    def keep(self, rows: Any, stamps: Ints) -> None:
        """Keeps the first differences of each port."""
        firsts = rows.assign(stamp=stamps).groupby("port").head(SHOWN)
        for row in firsts.fillna("").itertuples():
            kept = self.rows[row.port]
            if len(kept) < SHOWN:
                numbers = (printed.number(word) for word in (row.record_in, row.record_out, row.delay, row.bound))
                kept.append(Difference(row.port, printed.number(row.link), row.kind, row.stamp, *numbers))


def stamps_of(rows: Any, offsets: dict[int, int]) -> Ints:
    """Returns when differences were, by the clock of the frames that came in."""
    left = rows.stamp_out.notna()
    stamps: Ints = rows.stamp_out.fillna(rows.stamp_in).astype("int64").to_numpy(numpy.int64)
    added: Ints = rows.port.map(offsets).fillna(0).to_numpy(numpy.int64)
    shifted: Ints = stamps + numpy.where(left, added, 0)
    return shifted


def read(path: Path, differences: Differences) -> None:
    for rows in pieces(path, COLUMNS):
        differences.add(rows)
