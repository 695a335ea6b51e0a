"""Finds the offset and the drift between two recorders' clocks, from the frames that both have recorded."""
import hashlib
from collections.abc import Sequence
from dataclasses import dataclass
from pathlib import Path

import numpy as np
import numpy.typing as npt

from afdx.importing.frames import CHECK_SEQUENCE, CheckSequences
from afdx.recordings.columns import SECOND, Batch, Column
from afdx.recordings.faults import Place
from afdx.recordings.reading import Recording

Floats = npt.NDArray[np.float64]
MOST_KEPT = 2**19  # frames of a recording; of more a part is kept, chosen by their bytes: the same of both recordings
WINDOW = 1_000_000  # ns by which differences of the same frames may vary
NEVER = 2**62  # ns, farther than any two stamps are apart
MOST_DRIFT = 1 / (1 - 200e-6) - 1  # of two clocks: 200 parts in a million by the faster one
SLICES = 32  # at most so many parts of the time are looked at by themselves,
OF_SLICE, SAMPLES = 50, 500  # of about so many frames at least, of which so many are tried,
MOST_PAIRS = 2**20  # in so many pairs at most: those that come least often in the first recording
BINS = 64  # medians through which a line is laid
NEARLY = 0.8  # of the frames for one offset, from which on another one is as likely
NOISE, SUPPOSED = 2000, 4  # ns by which so many frames more are taken to be off: few frames may fit by chance
SURE = 4  # times the error of the drift, beyond which it is none of the noise
AGAIN = "the same frames come again and again: more than one offset fits"


class Unaligned(Exception):
    """Is raised for recordings of which no offset can be told."""


@dataclass
class Sightings:
    """Are the frames of a recording: what they are, and when they were seen."""
    first: int  # the stamp of the first record
    tick: int  # ns, the clock's resolution
    key: npt.NDArray[np.uint64]
    stamp: Column
    broken: Place | None = None  # where the recording breaks off, if it does
    often: Sequence[int] = ()  # keys of frames that came too often to be kept

    def has(self, keys: Sequence[int]) -> bool:
        """Returns whether frames of one of these keys were seen."""
        return not set(keys).isdisjoint(self.often) or bool(np.isin(np.array(keys, np.uint64), self.key).any())


@dataclass(frozen=True)
class Line:
    """Is the difference of two clocks: at the anchor, and its growth."""
    anchor: int
    base: int  # ns
    more: float  # ns
    drift: float

    def over(self, stamp: Column) -> Floats:
        """Returns the differences at these instants, beyond the base."""
        return self.more + self.drift * (stamp - self.anchor).astype(np.float64)


@dataclass(frozen=True)
class Alignment:
    """Is what the rules need to bring the second recording to the first one's clock, and how good it is."""
    line: Line
    untold: float  # how great a drift may be that is not told; 0 if one is
    pairs: int
    seconds: float
    residues: Floats  # what is left of the pairs' differences, in ns

    @property
    def offset_ns(self) -> int:
        return -self.line.base - round(self.line.more)

    @property
    def drift_ppb(self) -> int:
        return -round(self.line.drift * SECOND)

    @property
    def drift_from_ns(self) -> int:
        """Returns the stamp from which the drift counts, which is that of the second recording's first record."""
        return self.line.anchor


class Sampler:
    """Keeps the frames whose key is low enough for a list of bounded length, without those whose key once was that of
    most of the list: they tell no offset, and would push out all others."""

    def __init__(self) -> None:
        self.limit = 2**64 - 1
        self.often: list[int] = []  # keys
        self.keys: list[npt.NDArray[np.uint64]] = []
        self.stamps: list[Column] = []
        self.count = 0
        self.seen = 0  # frames, kept or not

    def add(self, key: npt.NDArray[np.uint64], stamp: Column) -> None:
        self.seen += len(key)
        low = self.is_kept(key)
        self.keys.append(key[low])
        self.stamps.append(stamp[low])
        self.count += int(np.count_nonzero(low))
        while self.count > MOST_KEPT:
            key, stamp = np.concatenate(self.keys), np.concatenate(self.stamps)
            middle = np.sort(key)[len(key) // 2]
            if 2 * np.count_nonzero(key == middle) > len(key):
                self.often.append(int(middle))
            else:
                self.limit //= 2
            low = self.is_kept(key)
            self.keys, self.stamps, self.count = [key[low]], [stamp[low]], int(np.count_nonzero(low))

    def is_kept(self, key: npt.NDArray[np.uint64]) -> npt.NDArray[np.bool_]:
        low: npt.NDArray[np.bool_] = key <= np.uint64(self.limit)
        return low & ~np.isin(key, np.array(self.often, np.uint64)) if self.often else low


def sightings(path: Path) -> Sightings:
    """Reads the whole frames of a recording, of all its interfaces."""
    recording, sampler, first = Recording(path, path.name), Sampler(), None
    checks: dict[int, CheckSequences] = {}
    for batch in recording.batches():
        if first is None and len(batch.stamp):
            first = int(batch.stamp[0])
        sampler.add(*keyed(batch, checks))
    if first is None or not sampler.seen:
        raise Unaligned(f"no frames, {path}" if first is None else f"all frames are cut, {path}")
    tick = max(interface.tick for interface in recording.interfaces)
    return Sightings(first, tick, np.concatenate(sampler.keys), np.concatenate(sampler.stamps), recording.broken,
                     sampler.often)


def keyed(batch: Batch, checks: dict[int, CheckSequences]) -> tuple[npt.NDArray[np.uint64], Column]:
    """Returns a batch's whole frames by a number made of their bytes, without a check sequence, with their stamps."""
    end = batch.start + batch.captured
    for place in np.unique(batch.interface).tolist():
        its = np.flatnonzero(batch.interface == place)
        if checks.setdefault(place, CheckSequences()).look(batch, its):
            end[its] -= CHECK_SEQUENCE
    whole = np.flatnonzero(batch.captured == batch.original)
    digests = b"".join([hashlib.blake2b(batch.data[begin:after], digest_size=8).digest()
                        for begin, after in zip(batch.start[whole].tolist(), end[whole].tolist())])
    return np.frombuffer(digests, np.uint64), batch.stamp[whole]


def gaps(key: npt.NDArray[np.uint64], stamp: Column) -> Column:
    """Returns of each of these frames, which are sorted, how far from it the next one of the same bytes is."""
    between = np.where(key[1:] == key[:-1], stamp[1:] - stamp[:-1], NEVER)
    found: Column = np.minimum(np.append(between, NEVER), np.append(NEVER, between))
    return found


class Occurrences:
    """Finds the first recording's frames of the same bytes."""

    def __init__(self, seen: Sightings) -> None:
        order = np.lexsort((seen.stamp, seen.key))
        self.key, self.stamp = seen.key[order], seen.stamp[order]
        self.gap = gaps(self.key, self.stamp)

    def all_differences(self, key: npt.NDArray[np.uint64], stamp: Column) -> tuple[Column, Column, Column]:
        """Returns each difference of these frames from one of the same bytes, with the frame's place among these, and
        how far from that one the next one of the same bytes is."""
        begin, end = np.searchsorted(self.key, key), np.searchsorted(self.key, key, "right")
        count = end - begin
        which = np.repeat(np.arange(len(key)), count)
        at = begin[which] + np.arange(len(which)) - (np.cumsum(count) - count)[which]
        return stamp[which] - self.stamp[at], which, self.gap[at]

    def rarest(self, key: npt.NDArray[np.uint64]) -> Column:
        """Returns the places, in order, of those of these frames that make the fewest pairs, MOST_PAIRS in all: frames
        that come again and again for hours would make pairs without end, and tell no offset."""
        count = np.searchsorted(self.key, key, "right") - np.searchsorted(self.key, key)
        order = np.argsort(count, kind="stable")
        found: Column = np.sort(order[np.cumsum(count[order]) <= MOST_PAIRS])
        return found

    def nearest(self, key: npt.NDArray[np.uint64], expected: Column) -> Column:
        """Returns the places of those frames of the same bytes that were seen nearest to what is expected."""
        begin, end = np.searchsorted(self.key, key), np.searchsorted(self.key, key, "right")
        while (end - begin > 1).any():
            middle = (begin + end) // 2
            many, is_before = end - begin > 1, self.stamp[np.minimum(middle, len(self.stamp) - 1)] <= expected
            begin, end = np.where(many & is_before, middle, begin), np.where(many & ~is_before, middle, end)
        after = np.minimum(begin + 1, len(self.key) - 1)
        far, farther = np.abs(self.stamp[begin] - expected), np.abs(self.stamp[after] - expected)
        nearest: Column = np.where((self.key[after] == key) & (farther < far), after, begin)
        return nearest


def densest(differences: Column, width: int) -> tuple[int, int]:
    """Returns where the window begins that holds most of these sorted differences, and how many it holds."""
    held = np.searchsorted(differences, differences + width, "right") - np.arange(len(differences))
    best = int(held.argmax())
    return int(differences[best]), int(held[best])


def voted(first: Occurrences, key: npt.NDArray[np.uint64], stamp: Column, gap: Column) -> tuple[Column, Column, bool]:
    """Returns stamps and differences of those frames of a part of the time that agree on an offset, and whether nearly
    as many agree on another one.

    Only pairs vote whose frames have none of the same bytes near them, on their own side, within the window: so in any
    window each frame pairs with one at most. Where most of the pairs in the window are others, nothing is agreed."""
    begin = max(0, (len(key) - SAMPLES) // 2)
    middle = slice(begin, begin + SAMPLES)
    some = begin + first.rarest(key[middle])
    key, stamp, gap = key[some], stamp[some], gap[some]
    differences, which, other_gap = first.all_differences(key, stamp)
    width = WINDOW + round(MOST_DRIFT * int(stamp[-1] - stamp[0]))
    alone = np.minimum(gap[which], other_gap) > width
    ordered = np.sort(differences[alone])
    if not len(ordered):
        return stamp[:0], stamp[:0], True
    low, count = densest(ordered, width)
    others = ordered[(ordered < low) | (ordered > low + width)]
    agreed = (differences >= low) & (differences <= low + width)
    is_doubtful = (len(others) > 0 and densest(others, width)[1] >= NEARLY * count
                   or 2 * count < len(np.unique(which[agreed])))
    agreed &= alone
    return stamp[which[agreed]], differences[agreed], is_doubtful


class Medians:
    """Are the points through which a line is laid: medians of instants and differences, of frames in their order."""

    def __init__(self, anchor: int, stamp: Column, difference: Column) -> None:
        self.anchor, self.base = anchor, int(np.sort(difference)[len(difference) // 2])
        parts = np.array_split(np.argsort(stamp, kind="stable"), min(BINS, len(stamp)))
        self.at = np.array([np.median((stamp[part] - anchor).astype(np.float64)) for part in parts])
        self.height = np.array([np.median((difference[part] - self.base).astype(np.float64)) for part in parts])
        self.of_each = len(stamp) / len(parts)

    def drift(self) -> float:
        """Returns the median of all slopes between the points, which weigh as much as their points are apart."""
        low, high = np.triu_indices(len(self.at), 1)
        apart = self.at[high] - self.at[low]
        low, high, apart = low[apart > 0], high[apart > 0], apart[apart > 0]
        if not len(apart):
            return 0.0
        slopes = (self.height[high] - self.height[low]) / apart
        order = np.argsort(slopes)
        weight = np.cumsum(apart[order])
        return float(slopes[order[np.searchsorted(weight, weight[-1] / 2)]])

    def line(self, drift: float) -> Line:
        """Lays the line of this drift through them, of no more than two clocks can have."""
        drift = min(max(drift, -MOST_DRIFT), MOST_DRIFT)
        return Line(self.anchor, self.base, float(np.median(self.height - drift * self.at)), drift)

    def told(self, noise: int) -> tuple[Line, float]:
        """Returns the line through them, and how great a drift may be that is not told. Raises Unaligned.

        A slope is off by the points' noise over the root of the sum of squares of their instants. The noise is how far
        they are from the line, on average, with some more that are off by as much as stamps are; a slope within SURE
        times this error is taken for 0."""
        drift = self.drift()
        line = self.line(drift)
        off = float(np.abs(self.height - line.more - line.drift * self.at).sum())
        supposed = SUPPOSED * noise / self.of_each ** 0.5
        spread = float(np.sqrt(np.square(self.at - self.at.mean()).sum()))
        error = SURE * (off + supposed) / (len(self.at) - 2 + SUPPOSED) / spread if spread else np.inf
        if abs(drift) - error > MOST_DRIFT:
            raise Unaligned("the clocks drift apart by more than 200 parts in a million")
        return (line, 0.0) if abs(line.drift) > error else (self.line(0.0), 2 * error)


def aligned(first: Sightings, second: Sightings) -> Alignment:
    """Finds how the second recording's stamps become the first one's. Raises Unaligned."""
    occurrences, others = Occurrences(first), Occurrences(second)
    both = np.flatnonzero(np.isin(others.key, first.key))
    if not len(both):
        is_again = first.has(second.often) or second.has(first.often)
        raise Unaligned(AGAIN if is_again else "no frame is in both recordings")
    both = both[np.argsort(others.stamp[both], kind="stable")]
    key, stamp, gap = others.key[both], others.stamp[both], others.gap[both]
    votes = [voted(occurrences, key[part], stamp[part], gap[part])
             for part in np.array_split(np.arange(len(key)), min(SLICES, max(1, len(key) // OF_SLICE)))]
    sure = [vote for vote in votes if not vote[2]]
    if 2 * len(sure) < len(votes):
        raise Unaligned(AGAIN)
    points = Medians(second.first, *(np.concatenate([vote[column] for vote in sure]) for column in (0, 1)))
    at, fits, alone = fitting(occurrences, points.line(points.drift()), key, stamp, gap)
    if 2 * np.count_nonzero(fits) < len(fits):
        raise Unaligned("no offset and drift fit half of the frames that are in both")
    if 2 * np.count_nonzero(alone) < np.count_nonzero(fits):
        raise Unaligned(AGAIN)
    stamp, difference = stamp[alone], stamp[alone] - occurrences.stamp[at[alone]]
    line, untold = Medians(second.first, stamp, difference).told(max(NOISE, first.tick + second.tick))
    residues = difference - line.base - line.over(stamp)
    return Alignment(line, untold, len(stamp), int(stamp[-1] - stamp[0]) / SECOND, residues)


def fitting(first: Occurrences, line: Line, key: npt.NDArray[np.uint64], stamp: Column,
            gap: Column) -> tuple[Column, npt.NDArray[np.bool_], npt.NDArray[np.bool_]]:
    """Returns the place of the frame that each of these pairs with by the line, whether it lies near the line, and
    whether it also is the only one that can pair with it."""
    at = first.nearest(key, stamp - line.base - np.rint(line.over(stamp)).astype(np.int64))
    fits = np.abs(stamp - first.stamp[at] - line.base - line.over(stamp)) <= WINDOW
    count = np.bincount(at[fits], minlength=len(first.key))
    return at, fits, fits & (count[at] == 1) & (np.minimum(gap, first.gap[at]) > WINDOW)
