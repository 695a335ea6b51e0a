"""Finds what changed from recording to recording: steps of links' delays, and recordings that differ from the rest."""
import sqlite3
from array import array
from collections import defaultdict
from collections.abc import Iterable, Sequence
from dataclasses import dataclass, field
from itertools import groupby
from operator import itemgetter
from typing import Any

import numpy
from numpy.typing import NDArray

from afdx.campaign.worker.rows import FILTERED

LEAST_RUNS = 20  # recordings from which a step is looked for
CHANCE = 0.01  # of a step by chance among all links and ports of a table, from which it is no finding
FAR = 3  # spans of the middle half beside it, from which a value is far out (Tukey)

Rows = list[tuple[Any, ...]]
Floats = NDArray[numpy.float64]

RUNS = """
select tables.name, runs.id, recording from runs join tables on tables.id = runs."table"
order by tables.id, runs.begin, recording"""

DELAYS = "select switch, link, port, greatest from delays where run = ? and greatest is not null"

MEASURES = {
    "frames seen": 'total("seen")',
    "frames filtered": "total(" + " + ".join(f'"{name}"' for name in FILTERED) + ")",
    "copies lost": "total(high_full + high_aged + low_full + low_aged)"}

COUNTS = f"""
select tables.name, recording, {", ".join(MEASURES.values())}
from runs join tables on tables.id = runs."table" join ports on run = runs.id
group by runs.id order by tables.id, runs.begin, recording"""

SHARES = """
select tables.name, recording, max(1.0 * greatest / bound)
from runs join tables on tables.id = runs."table" join delays on run = runs.id
where bound is not null and greatest is not null group by runs.id order by tables.id, runs.begin, recording"""


def ranks(values: Floats) -> Floats:
    """Returns the rank of each value from 1; equal ones share the mean of theirs."""
    _, places, counts = numpy.unique(values, return_inverse=True, return_counts=True)
    shared: Floats = counts.cumsum() - (counts - 1) / 2
    return shared[places]


def step_of(values: Floats) -> tuple[int, float]:
    """Returns the first place after the step that Pettitt's rank test finds, and its chance if there is none."""
    count = len(values)
    sums = 2 * ranks(values)[:-1].cumsum() - numpy.arange(1, count) * (count + 1)
    place = int(numpy.abs(sums).argmax())
    greatest = abs(float(sums[place]))
    return place + 1, min(1.0, 2 * float(numpy.exp(-6 * greatest**2 / (count**3 + count**2))))


def trends(base: sqlite3.Connection) -> Rows:
    """Returns the steps of each link's and port's greatest delays over the recordings in the order of their begin."""
    found: Rows = []
    for table, runs in groupby(base.execute(RUNS).fetchall(), itemgetter(0)):
        _, numbers, recordings = zip(*runs)
        series = series_of(base, numbers)
        long_enough = {place: own for place, own in series.items() if len(own.values) >= LEAST_RUNS}
        steps = [(table, *place, *step_row(own, recordings, len(series))) for place, own in long_enough.items()]
        found += sorted((row for row in steps if row[-1] < CHANCE), key=itemgetter(-1))
    return found


@dataclass(frozen=True)
class Series:
    """The greatest delays of a link at a port, each with the place of its recording."""
    places: "array[int]" = field(default_factory=lambda: array("l"))
    values: "array[float]" = field(default_factory=lambda: array("d"))


def series_of(base: sqlite3.Connection, numbers: Iterable[int]) -> dict[tuple[str, int, int], Series]:
    """Returns the series of all links and ports over these runs, in their order."""
    found: defaultdict[tuple[str, int, int], Series] = defaultdict(Series)
    for run_place, number in enumerate(numbers):
        for switch, link, port, greatest in base.execute(DELAYS, (number,)):
            series = found[switch, link, port]
            series.places.append(run_place)
            series.values.append(greatest)
    return found


def step_row(series: Series, recordings: Sequence[str], many: int) -> tuple[Any, ...]:
    """Returns the link's number of recordings, that of its step, medians, change, and the chance among all series."""
    values = numpy.frombuffer(series.values)
    first, chance = step_of(values)
    before, after = float(numpy.median(values[:first])), float(numpy.median(values[first:]))
    return len(values), recordings[series.places[first]], before, after, after - before, min(1.0, chance * many)


def outliers(base: sqlite3.Connection) -> Rows:
    """Returns the recordings of which a number is far out among those of all recordings of the table."""
    found: Rows = []
    for sql, names in ((COUNTS, tuple(MEASURES)), (SHARES, ("nearest to a bound",))):
        for table, rows in groupby(base.execute(sql), itemgetter(0)):
            recordings, *columns = list(zip(*rows))[1:]
            for name, column in zip(names, columns):
                found += far_out(table, name, recordings, numpy.array(column, dtype=float))
    return sorted(found, key=itemgetter(0, 1))


def far_out(table: str, name: str, recordings: tuple[str, ...], values: Floats) -> Rows:
    """Returns the values beside the middle half of all by more than some of its spans."""
    low, high = (float(edge) for edge in numpy.percentile(values, (25, 75)))
    least, most = low - FAR * (high - low), high + FAR * (high - low)
    return [(table, recording, name, float(value), least, most) for recording, value in zip(recordings, values)
            if not least <= value <= most]
