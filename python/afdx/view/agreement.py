"""Checks that answers which were kept are of one run, as far as they tell it."""
from typing import TYPE_CHECKING

from afdx import printed

if TYPE_CHECKING:
    from afdx.view.run import Run


def check_copies(run: "Run") -> None:
    """Raises ValueError if `trace` has not as many sent copies as `measure` counted, of a link at a port."""
    for pair in run.pairs:
        if pair.traced != pair.sent:
            raise ValueError(f"link {pair.link} at port {pair.port}: {pair.traced} copies and not {pair.sent}")


def check_instants(run: "Run") -> None:
    """Raises ValueError if a stamp that `measure` has is before the first one of `trace` or after the last one."""
    first, last = run.clock.first, run.clock.last
    for row in run.occupied:
        at = printed.number(row["at"])
        if at is not None and (first is None or last is None or not first <= at <= last):
            raise ValueError(f"port {row['port']}: no stamp of a frame, {at}")


def check_bounds(run: "Run") -> None:
    """Raises ValueError if a bound that `measure` has is not that of `size`, and KeyError if that lacks the port."""
    needs = {int(need["port"]): need for need in run.needs}
    for pair in run.pairs:
        if pair.bound is not None and pair.bound != printed.number(needs[pair.port][pair.priority]):
            raise ValueError(f"link {pair.link} at port {pair.port}: another bound than {pair.bound}")


def check(run: "Run") -> None:
    """Raises KeyError or ValueError if `size`, `measure` and `trace` contradict each other."""
    check_copies(run)
    check_instants(run)
    check_bounds(run)
