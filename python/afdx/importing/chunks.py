"""Holds records of a port as a capture has them, cuts them apart and puts them in order."""
from dataclasses import dataclass, replace

import numpy as np
import numpy.typing as npt

from afdx.importing.copying import copied, permuted, places_of
from afdx.recordings.columns import ROOM, Column, Origin, at_any
from afdx.recordings.faults import Place

SOON = 5_000_000  # ns; a link's frames that are so near have other sequence numbers
KEY = 8  # bytes at a frame's end, which its sequence number is among
SMALL = 64 * 1024  # bytes of a chunk below which it takes less to copy it than to go on with it by itself
LINK, LINK_SIZE = 4, 2  # where a frame has its link, and in how many bytes


@dataclass(frozen=True)
class Seen:
    """Is a record that others are compared with."""
    stamp: int
    origin: Origin
    where: int

    @property
    def place(self) -> Place:
        return self.origin.place_of(self.where)


@dataclass
class Chunk:
    """Are records of one port, at least one."""
    text: memoryview  # as a capture has them
    at: Column  # where each begins, and where the last one ends
    stamp: Column
    where: Column  # in the recording
    origin: Origin
    is_sorted: bool  # by the stamps
    is_shared: bool = False  # whether the text is a part of one that others have too
    waited: int = 0  # steps

    @property
    def first(self) -> int:
        return int(self.stamp[0])

    @property
    def last(self) -> int:
        return int(self.stamp[-1])

    @property
    def least(self) -> int:
        return self.first if self.is_sorted else int(self.stamp.min())

    @property
    def greatest(self) -> int:
        return self.last if self.is_sorted else int(self.stamp.max())

    def seen(self, index: int) -> Seen:
        return Seen(int(self.stamp[index]), self.origin, int(self.where[index]))

    def part(self, begin: int, end: int, is_sorted: bool) -> "Chunk":
        """Returns some of the records, which lie in this chunk's memory; whether they are sorted has to be told."""
        if end - begin == len(self.stamp):
            return replace(self, is_sorted=is_sorted)
        at = self.at[begin:end + 1]
        return Chunk(self.text[at[0]:at[-1]], at - at[0], self.stamp[begin:end], self.where[begin:end], self.origin,
                     is_sorted, is_shared=True, waited=self.waited)

    def apart(self) -> "Chunk":
        """Returns the records in memory of their own: as long as they wait, no others are kept."""
        return Chunk(memoryview(bytes(self.text)), self.at.copy(), self.stamp.copy(), self.where.copy(), self.origin,
                     self.is_sorted)

    def sorted(self) -> "Chunk":
        """Returns the records in the order of their stamps, equal ones in the order that they have."""
        order = np.argsort(self.stamp, kind="stable")
        text, at = arranged(self.text, np.diff(self.at), order)
        return Chunk(text, at, self.stamp[order], self.where[order], self.origin, is_sorted=True)

    def before(self, instant: int) -> int:
        """Returns how many of sorted records are before an instant."""
        if self.first < instant <= self.last:
            return int(np.searchsorted(self.stamp, instant))
        return len(self.stamp) if self.last < instant else 0


def arranged(text: bytes | memoryview, length: Column, order: Column) -> tuple[memoryview, Column]:
    """Returns records of these lengths, of which a text is made, in this order of them, with their places."""
    at = places_of(length[order])
    return copied(text, places_of(length)[:-1], length, permuted(at[:-1], order)), at


@dataclass(frozen=True)
class Ordered:
    """Are records in the order of their stamps, as they are written."""
    text: memoryview
    at: Column
    stamp: Column

    def twice(self) -> int:
        """Counts the records of which one of the same stamp has the same bytes before them. Only where neighbours have
        one stamp, and links and the ends of frames are the same, bytes are compared."""
        same = self.stamp[1:] == self.stamp[:-1]
        some = np.flatnonzero(np.append(same, False) | np.append(False, same))
        if not len(some):
            return 0
        key, stamp = self.keys(some), self.stamp.take(some)
        order = np.lexsort((key, stamp))
        key, stamp = key.take(order), stamp.take(order)
        alike = (key[1:] == key[:-1]) & (stamp[1:] == stamp[:-1])
        places = some.take(order[np.append(alike, False) | np.append(False, alike)]).tolist()
        return len(places) - len({self.record(place) for place in places})

    def repeated(self, most: int) -> int:
        """Counts those of the first so many records whose frames have the bytes of an earlier one, of an earlier stamp,
        SOON before or sooner, but for those of links without sequence numbers, which go on so for longer. Only where
        links and the ends of frames are the same all bytes are compared."""
        key = self.keys(np.arange(min(most, len(self.stamp))))
        order = np.argsort(key, kind="stable")
        stamp, key = self.stamp.take(order), key.take(order)
        apart = stamp[1:] - stamp[:-1]
        same = (key[1:] == key[:-1]) & (apart <= SOON)
        begin = np.flatnonzero(np.append(True, ~same))
        lasts = np.append(stamp[begin[1:] - 1], stamp[-1]) - stamp[begin]
        is_short = np.repeat(lasts <= SOON, np.diff(begin, append=len(stamp)))
        near = np.flatnonzero(same & (apart > 0) & is_short[1:])
        return sum(self.frame(before) == self.frame(after)
                   for before, after in zip(order[near].tolist(), order[near + 1].tolist()))

    def keys(self, places: Column) -> npt.NDArray[np.uint64]:
        """Returns what these frames end with, together with their links."""
        begin, end = self.at.take(places), self.at.take(places + 1)
        link = at_any(self.text, "<u2")[np.minimum(begin + ROOM + LINK, end - LINK_SIZE)]
        key: npt.NDArray[np.uint64] = at_any(self.text, "<u8")[end - KEY] ^ (link.astype(np.uint64) << np.uint64(32))
        return key

    def frame(self, index: int) -> bytes:
        return bytes(self.text[self.at[index] + ROOM:self.at[index + 1]])

    def record(self, index: int) -> bytes:
        return bytes(self.text[self.at[index]:self.at[index + 1]])


def merged(chunks: list[Chunk]) -> list[Ordered]:
    """Returns the records of sorted chunks in order, of equal stamps those of the first chunk first, all of one stamp
    together."""
    is_large = sum(len(chunk.text) for chunk in chunks) >= SMALL * len(chunks)
    if is_large and all(before.last < after.first for before, after in zip(chunks, chunks[1:])):
        return [Ordered(chunk.text, chunk.at, chunk.stamp) for chunk in chunks]
    text = b"".join([chunk.text for chunk in chunks])
    length = np.concatenate([np.diff(chunk.at) for chunk in chunks])
    stamp = np.concatenate([chunk.stamp for chunk in chunks])
    order = np.argsort(stamp, kind="stable")
    return [Ordered(*arranged(text, length, order), stamp[order])]
