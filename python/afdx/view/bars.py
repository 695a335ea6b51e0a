"""Makes the bars of a port: what its links need, beside what it has."""
from dataclasses import dataclass

from afdx import printed
from afdx.pages.words import percent
from afdx.view.departures import PRIORITIES


@dataclass(frozen=True)
class Bar:
    what: str
    said: str
    width: float  # per cent
    over: bool  # the need is more than there is
    kind: str = ""


def bar(what: str, need: int, limit: int, unit: str, kind: str = "") -> Bar:
    said = f"{need:,} of {limit:,} {unit}, {percent(need, limit) if limit else '-'}"
    return Bar(what, said, 100 * min(need / limit, 1) if limit else 100, need > limit, kind)


def delay_bars(need: printed.Row) -> list[Bar]:
    """Returns a bar for the bound of each priority that the port has links of."""
    bars = []
    for priority in PRIORITIES:
        bound, limit = printed.number(need[priority]), printed.number(need[f"{priority}_limit"])
        if limit is not None and bound is not None:
            bars.append(bar(f"{priority} delay, bound", bound, limit, "ns", priority))
        elif limit is not None:
            bars.append(Bar(f"{priority} delay", f"no bound, of {limit:,} ns", 100, True))
    return bars


def bars_of(need: printed.Row, occupied: printed.Row) -> list[Bar]:
    """Returns the bars of a port, from its row of `size` and its row of `measure`."""
    return [bar("rate", int(need["rate"]), int(need["rate_limit"]), "parts"),
            bar("buffer needed", int(need["buffer"]), int(need["buffer_limit"]), "bytes"),
            bar("buffer used", int(occupied["occupied"]), int(occupied["buffer"]), "bytes", "used"),
            *delay_bars(need)]
