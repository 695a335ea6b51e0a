"""Goes over all recordings once, those that began first before the others, and fills the ports."""
import heapq
from collections.abc import Callable
from functools import partial
from pathlib import Path

import numpy as np

from afdx.importing.frames import CheckSequences, heads
from afdx.importing.left import Left
from afdx.importing.ordering import LONG_AGO, Ordering
from afdx.importing.rules import Rules, Source
from afdx.importing.taking import Destinations, Port, Taker, corrected
from afdx.recordings.columns import Column, Interface, picked
from afdx.recordings.faults import RecordingFault
from afdx.recordings.reading import PIECE, Recording

FIRST_LOOK = 64 * 1024  # bytes in which a recording's first record is looked for at a time
ALL_PIECES = 64 * 1024 * 1024  # bytes that all recordings that are read at one time share,
LEAST_PIECE = 64 * 1024  # and what each gets at least


def first_stamps(path: Path) -> dict[Interface, int]:
    """Returns the stamps of a recording's first records, of each interface that these are of, in their order; none if
    it has no records, or a fault before them."""
    recording, stamps = Recording(path, path.name, FIRST_LOOK), dict[Interface, int]()
    try:
        batch = next((batch for batch in recording.batches() if len(batch.stamp)), None)
    except RecordingFault:
        batch = None
    if batch is not None:
        for index in sorted(np.unique(batch.interface, return_index=True)[1].tolist()):
            stamps.setdefault(recording.interfaces[batch.interface[index]], int(batch.stamp[index]))
    return stamps


class Reading:
    """Is a recording that is being read, with what takes frames of it."""

    def __init__(self, recording: Recording, begins: dict[Interface, int]) -> None:
        self.recording = recording
        self.takers: list[Taker] = []
        self.checks: dict[int, CheckSequences] = {}  # by interface, of sources that find out what frames have
        self.claimed: dict[int, CheckSequences] = {}  # of those that say that all have theirs
        self.begins = begins
        self.newest = next(iter(begins.values()), None)  # stamp by the recorder's clock
        self.frames = 0
        self.left = Left()
        self.batches = recording.batches()
        self.begun = self.ended = False
        self.fault: RecordingFault | None = None

    def step(self) -> None:
        """Takes the next batch to its ports."""
        batch = next(self.batches, None)
        if batch is None:
            self.ended = True
        elif len(batch.stamp):
            self.frames += len(batch.stamp)
            of = heads(batch)
            taken = [taker.take(batch, of) for taker in self.takers]
            if len(self.recording.interfaces) > 1:
                self.note_lags(batch.stamp, taken)
            self.newest = max(self.newest or 0, int(batch.stamp.max()))
            self.left.add(batch, of, taken)
            for taker, its in zip(self.takers, taken):
                taker.tagged += int(np.count_nonzero(picked(of.tags, its)))

    def add(self, taker: Taker) -> None:
        self.takers.append(taker)
        begins = [begin for interface, begin in self.begins.items() if taker.is_asked(interface)]
        taker.lag = next(iter(self.begins.values())) - min(begins) if begins else 0

    def note_lags(self, stamp: Column, taken: list[Column]) -> None:
        """Notes how far the last frame of each taker is before the newest one up to there: interfaces may have clocks
        that are apart."""
        newest = np.maximum.accumulate(stamp)
        for taker, its in zip(self.takers, taken):
            if len(its):
                last = int(its[-1])
                taker.lag = max(self.newest or 0, int(newest[last])) - int(stamp[last])

    def progress(self, taker: Taker) -> int:
        """Returns how far the recording has come, by the clock that the taker's stamps have."""
        if self.newest is None:
            return LONG_AGO
        return int(corrected(np.array(self.newest - taker.lag), taker.source, taker.anchor))


class Import:
    """Takes the frames of all recordings to their ports."""

    def __init__(self, rules: Rules, raw: Path, found: list[list[Path]],
                 write: Callable[[str, memoryview], None], piece: int = PIECE) -> None:
        self.ports = {name: Port(Ordering(name, rules.window_ms, partial(write, name))) for name in rules.ports}
        self.readings = {path: Reading(Recording(path, str(path.relative_to(raw)), piece), first_stamps(path))
                         for path in dict.fromkeys(path for paths in found for path in paths)}
        self.takers: list[tuple[Reading, Taker]] = []
        self.piece = piece
        self.open = 0  # recordings that are being read
        # of each port, by the taker's number, how far recordings have come that feed it and have not ended
        self.progress: dict[str, dict[int, int]] = {name: {} for name in rules.ports}
        for source, paths in zip(rules.sources, found):
            begins = [begin for path in paths if (begin := self.readings[path].newest) is not None]
            anchor = min(begins, default=0) if source.drift_from_ns is None else source.drift_from_ns
            to = Destinations(source, self.ports)
            for path in paths:
                self.add(self.readings[path], source, anchor, to)
        for reading in self.readings.values():
            self.note_progress(reading)

    @property
    def faults(self) -> list[RecordingFault]:
        """Returns the first fault of each recording that has one, in the rules' order."""
        return [reading.fault for reading in self.readings.values() if reading.fault]

    def add(self, reading: Reading, source: Source, anchor: int, to: Destinations) -> None:
        checks = reading.checks if source.fcs == "auto" else reading.claimed
        taker = Taker(len(self.takers), source, anchor, reading.recording, checks, to)
        reading.add(taker)
        self.takers.append((reading, taker))

    def run(self, say: Callable[[int], None]) -> None:
        """Reads all recordings; says of each step how many bytes were read. Faults are kept, one of each recording."""
        readings = list(self.readings.values())
        queue = [(self.key(reading), index) for index, reading in enumerate(readings)]
        heapq.heapify(queue)
        while queue:
            _, index = heapq.heappop(queue)
            reading, before = readings[index], readings[index].recording.read
            self.step(reading)
            say(reading.recording.read - before)
            if not reading.ended:
                heapq.heappush(queue, (self.key(reading), index))

    def step(self, reading: Reading) -> None:
        self.open += not reading.begun
        reading.begun = True
        reading.recording.piece = min(self.piece, max(LEAST_PIECE, ALL_PIECES // self.open))
        try:
            reading.step()
        except RecordingFault as fault:
            reading.fault = fault
            reading.ended = True
        self.open -= reading.ended
        self.note_progress(reading)
        for port in dict.fromkeys(port for taker in reading.takers for port in taker.names):
            self.ports[port].ordering.settle(self.progress[port])

    def note_progress(self, reading: Reading) -> None:
        """Notes how far a recording has come for each port that it feeds, or that it has ended."""
        for taker in reading.takers:
            for port in taker.names:
                if reading.ended:
                    del self.progress[port][taker.number]
                else:
                    self.progress[port][taker.number] = reading.progress(taker)

    def key(self, reading: Reading) -> int:
        return min((reading.progress(taker) for taker in reading.takers), default=LONG_AGO)
