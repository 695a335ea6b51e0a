"""Keeps of each link and each port that it leads to what became of its frames there."""
from dataclasses import dataclass

from afdx import printed
from afdx.view.arrivals import Fates
from afdx.view.bounded import Sender
from afdx.view.table import Table


@dataclass
class Pair(Sender):
    """A link at one of its output ports. Times are in ns."""
    link: int
    port: int
    priority: str
    passed: int
    policed: int
    sent: int
    full: int  # copies that found a full buffer
    least: int | None  # None where nothing was sent
    greatest: int | None
    bound: int | None  # None where none is promised
    aged: int = 0  # copies discarded for their age
    traced: int = 0  # copies that were sent, as `trace` has them

    @property
    def lost(self) -> int:
        return self.full + self.aged


def pairs_of(measured: str, table: Table, fates: Fates) -> list[Pair]:
    """Returns the delays that `afdx measure` printed, with what the frames' fates say of each link."""
    pairs = []
    for row in printed.rows_of(measured, "delays"):
        link, port = int(row["link"]), int(row["port"])
        least, greatest, bound = (printed.number(row[key]) for key in ("least", "greatest", "bound"))
        pairs.append(Pair(link, port, table.links[link].priority, int(fates.by_link["passed"][link]),
                          int(fates.by_link["policed"][link]), int(row["sent"]), fates.full[link, port],
                          least, greatest, bound))
    return pairs
