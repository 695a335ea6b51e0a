"""Writes the rows of findings as the page shows them."""
from collections.abc import Callable
from dataclasses import dataclass
from typing import Any

from afdx.campaign.findings import LOST_NAMES, Rows
from afdx.pages.words import number, tenths, utc

MOST = 300  # rows of a table on the page

Cells = tuple[Any, ...]


@dataclass(frozen=True)
class Listing:
    """A table of the page."""
    name: str  # of the CSV that has all rows
    heads: tuple[str, ...]
    rows: Rows
    many: int  # rows that there are
    words: bool  # whether its cells are words rather than numbers


def listing(name: str, rows: Rows) -> Listing:
    """Returns the first rows of a finding, without the column of switches if there is one switch alone."""
    heads, cells, words = FORMS[name]
    shown = [cells(row) for row in rows[:MOST]]
    if heads[0] == "switch" and not any(row[0] for row in shown):
        heads, shown = heads[1:], [row[1:] for row in shown]
    return Listing(name, heads, shown, len(rows), words)


def same(row: Cells) -> Cells:
    """Returns a row as it is."""
    return row


def worst(row: Cells) -> Cells:
    """Returns a row of the greatest delays."""
    switch, link, port, sent, greatest, bound, share, recording = row
    percent = "-" if share is None else tenths(share)
    return switch, link, port, number(sent), number(greatest), number(bound), percent, recording


def babbler(row: Cells) -> Cells:
    """Returns a row of the policed links."""
    switch, link, recording, passed, policed, begin, end, frames, least, greatest = row
    return (switch, link, recording, number(passed), number(policed), instant(begin), instant(end), number(frames),
            number(least), number(greatest))


def trend(row: Cells) -> Cells:
    """Returns a row of the steps."""
    switch, link, port, recordings, step, before, after, change, chance = row
    return (switch, link, port, number(recordings), step, number(before), number(after), number(change),
            f"{chance:.1e}")


def outlier(row: Cells) -> Cells:
    """Returns a row of the recordings that differ."""
    recording, what, *numbers = row
    return recording, what, *(f"{value:,.3f}".rstrip("0").rstrip(".") for value in numbers)


def compared(row: Cells) -> Cells:
    """Returns a row of one table against another."""
    return *row[:3], *(number(value) for value in row[3:])


def instant(stamp: int | None) -> str:
    """Writes a stamp to the millisecond."""
    return "-" if stamp is None else utc(stamp)[:-6]


FORMS: dict[str, tuple[tuple[str, ...], Callable[[Cells], Cells], bool]] = {
    "faults": (("table", "recording", "status", "fault", "tries", "line"), same, True),
    "worst": (("switch", "link", "port", "sent", "greatest, ns", "bound, ns", "% of it", "recording"), worst, False),
    "babblers": (("switch", "link", "recording", "passed", "policed", "from", "to", "frames", "early, least, ns",
                  "early, greatest, ns"), babbler, True),
    "lost": (("recording", *(name.replace("_", "-") for name in LOST_NAMES)), same, False),
    "trends": (("switch", "link", "port", "recordings", "step at", "median before, ns", "median after, ns",
                "change, ns", "chance"), trend, False),
    "outliers": (("recording", "what", "value", "usual from", "usual to"), outlier, True),
    "compare": (("switch", "link", "port", "recordings", "before, ns", "after, ns", "change, ns", "greater in",
                 "less in", "bound before", "bound after"), compared, False)}
