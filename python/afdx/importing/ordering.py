"""Puts the records of a port in the order of their stamps, within a window."""
from collections.abc import Callable

import numpy as np

from afdx.importing.chunks import Chunk, Seen, merged
from afdx.importing.instants import instant
from afdx.recordings.faults import RecordingFault

MOST_WAITING = 16 * 1024 * 1024  # bytes of a port's records that wait for earlier ones,
OF_EACH = 4 * 1024 * 1024  # and so many more for each source that has begun
LEAST_WRITTEN = 2 * 1024 * 1024  # bytes of a port's records that are worth a write,
MANY = 64  # or parts: each step goes through all that wait
MOST_LOOKED = 512  # records of each write of which earlier ones with the same bytes are looked for
MOST_SHARED = 8  # steps in which records wait in memory that they share with those of other ports
LONG_AGO = -(2**62)
MILLISECOND = 1_000_000


class Ordering:
    """Keeps a port's records until no earlier one may come, and writes them in order."""

    def __init__(self, port: str, window_ms: int, write: Callable[[memoryview], None]) -> None:
        self.port = port
        self.window_ms = window_ms
        self.window = window_ms * MILLISECOND
        self.write = write
        self.reordered = 0
        self.most_late = 0  # ns, and the record that was so much before an earlier one
        self.latest: Seen | None = None
        self.twice = 0  # records that have come before, with the same stamp
        self.looked = 0  # records that were looked at, and those that have come shortly before
        self.repeated = 0
        self.waiting: list[Chunk] = []
        self.size = 0  # bytes that wait
        self.left = self.parts_left = 0  # bytes and parts that waited on when the last ones were written
        self.newest: dict[int, Seen] = {}  # of each source
        self.written: Seen | None = None

    def add(self, source: int, chunk: Chunk) -> None:
        """Takes records of a source, at least one. Raises RecordingFault for one that comes too late."""
        self.refuse_late(source, chunk)
        self.waiting.append(chunk if chunk.is_sorted else chunk.sorted())
        self.size += len(chunk.text)

    def refuse_late(self, source: int, chunk: Chunk) -> None:
        newest = self.newest.get(source)
        if not chunk.is_sorted or newest and chunk.first < newest.stamp:
            self.refuse_fallen(chunk, newest)
        if self.written and chunk.least < self.written.stamp:
            first = int((chunk.stamp < self.written.stamp).argmax())
            raise self.late(chunk.seen(first), self.written, "late, and later ones no longer wait")
        if newest is None or chunk.greatest > newest.stamp:
            self.newest[source] = chunk.seen(int(chunk.stamp.argmax()))

    def refuse_fallen(self, chunk: Chunk, newest: Seen | None) -> None:
        """Counts the records whose stamps are before an earlier one's, and refuses those that are so by more than the
        window."""
        stamp = chunk.stamp
        before = np.maximum.accumulate(np.append(newest.stamp if newest else LONG_AGO, stamp))[:-1]
        late_by = before - stamp
        self.reordered += int(np.count_nonzero(late_by > 0))
        latest = int(late_by.argmax())
        if late_by[latest] > self.most_late:
            self.most_late, self.latest = int(late_by[latest]), chunk.seen(latest)
        late = late_by > self.window
        if late.any():
            first = int(late.argmax())
            is_here = newest is None or int(before[first]) > newest.stamp
            after = chunk.seen(int(stamp[:first].argmax())) if is_here else newest
            raise self.late(chunk.seen(first), after, f"more than {self.window_ms} ms late")

    def late(self, record: Seen, after: Seen | None, how: str) -> RecordingFault:
        assert after is not None
        stamps = f"{instant(record.stamp)} comes after {instant(after.stamp)} ({after.place})"
        return RecordingFault(f"a frame of {self.port} is {how}: {stamps}", record.place)

    def settle(self, progress: dict[int, int]) -> None:
        """Writes what no record of these sources may precede, each of which has come so far; what waits for long gets
        memory of its own, so that no others are kept with it."""
        if not progress:
            self.release(LONG_AGO, len(self.waiting))
        elif self.size - self.left >= LEAST_WRITTEN or len(self.waiting) - self.parts_left >= MANY:
            self.release(self.slowest(progress) - self.window)
        if self.size > MOST_WAITING:
            self.release_early(progress)
        self.set_apart()

    def slowest(self, progress: dict[int, int]) -> int:
        """Returns how far the slowest of these sources has come; if it is the only one, by the port's own records."""
        if len(progress) > 1:
            return min(progress.values())
        newest = self.newest.get(next(iter(progress)))
        return newest.stamp if newest else LONG_AGO

    def release_early(self, progress: dict[int, int]) -> None:
        """Writes more if too much waits: what half of the window lets, a quarter, and so on. If that is not enough, as
        sources of one recording have clocks that are far apart, all but the last records are written."""
        most = MOST_WAITING + len(progress.keys() & self.newest.keys()) * OF_EACH
        slowest, window = self.slowest(progress), self.window
        while self.size > most and window:
            window //= 2
            self.release(slowest - window)
        if self.size > most:
            older = self.waiting[:-1]
            self.release(max((chunk.last for chunk in older), default=LONG_AGO), len(older))

    def set_apart(self) -> None:
        for index, chunk in enumerate(self.waiting):
            chunk.waited += 1
            if chunk.is_shared and chunk.waited > MOST_SHARED:
                self.waiting[index] = chunk.apart()

    def release(self, until: int, whole: int = 0) -> None:
        """Writes all records before this instant, and those of the first chunks whole."""
        ready: list[Chunk] = []
        waiting: list[Chunk] = []
        for index, chunk in enumerate(self.waiting):
            size = len(chunk.stamp)
            count = size if index < whole else chunk.before(until)
            ready += [chunk.part(0, count, True)] if count else []
            waiting += [chunk.part(count, size, True)] if count < size else []
        self.waiting = waiting
        if ready:
            self.put(ready)
        self.left, self.parts_left = self.size, len(self.waiting)

    def put(self, ready: list[Chunk]) -> None:
        left = MOST_LOOKED
        for ordered in merged(ready):
            self.write(ordered.text)
            self.size -= len(ordered.text)
            self.twice += ordered.twice()
            self.repeated += ordered.repeated(left) if left else 0
            left -= min(left, len(ordered.stamp))
        self.looked += MOST_LOOKED - left
        self.written = max(ready, key=lambda chunk: chunk.last).seen(-1)
