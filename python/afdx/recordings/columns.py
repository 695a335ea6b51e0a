"""Holds what a reader hands on: many records at once, each field of theirs a column."""
from collections.abc import Callable, Iterator
from dataclasses import dataclass, replace
from typing import Any, TypeVar

import numpy as np
import numpy.typing as npt

from afdx.recordings.faults import Place

Column = npt.NDArray[np.int64]
Words = npt.NDArray[np.uint32]
Number = TypeVar("Number", bound=np.generic)

SECOND = 1_000_000_000
END_OF_STAMPS = 4_294_967_295 * SECOND  # afdx reads no stamp from here on
ROOM = 16  # bytes before each frame's first one: enough for a record's header
HALF = 32  # bits
SENDER = 8  # the place in a frame of the last four bytes of its source address


@dataclass(frozen=True)
class Interface:
    """A line that was recorded: its number in its section, its name if the recording has one, its link type, and the
    unit of its clock."""
    number: int
    name: str
    link_type: int
    tick: int  # ns, rounded up


@dataclass(frozen=True)
class Origin:
    """Says where the records of a piece are in their recording."""
    place: Callable[[int, int], Place]  # of a record, by its number and its offset
    number: int  # of the first record, of the first block in pcapng
    offset: int  # of the piece in the recording, as it is when unpacked

    def place_of(self, where: int) -> Place:
        return self.place(self.number + (where >> HALF), self.offset + (where & (1 << HALF) - 1))


@dataclass(frozen=True)
class Batch:
    """Records that lie whole in one piece of a recording."""
    data: bytes
    origin: Origin
    where: Column  # of the record: how many were before it, and its place in data, in halves of one number
    start: Column  # of the frame's first byte in data
    captured: Column
    original: Column  # at least captured
    stamp: Column  # ns
    interface: Column  # its place among the reader's interfaces
    sender: Words  # the last four bytes of the source address, the first one lowest; any if these were not captured
    is_written: bool = False  # whether the records, from ROOM before each frame on, are as afdx writes them


def joined(parts: list[Batch]) -> Iterator[Batch]:
    """Returns batches of one piece as one, if there are any."""
    if len(parts) > 1:
        names = ("where", "start", "captured", "original", "stamp", "interface", "sender")
        columns = {name: np.concatenate([getattr(part, name) for part in parts]) for name in names}
        parts = [replace(parts[0], **columns)]
    yield from parts


def wheres(at: Column) -> Column:
    """Returns where all records of a piece are, which begin at these places."""
    found: Column = (np.arange(len(at)) << HALF) + at
    return found


def at_any(data: bytes | memoryview, kind: str, begin: int = 0) -> npt.NDArray[Any]:
    """Returns what of this kind lies at each place of data from `begin` on; neighbours overlap."""
    size = np.dtype(kind).itemsize
    found: npt.NDArray[Any] = np.ndarray((max(len(data) - begin - size + 1, 0),), kind, data, begin, (1,))
    return found


def words(data: bytes, at: Column, count: int, order: str) -> Words:
    """Returns the words of 4 bytes from each of these places on, which ascend, a row for each; zeros past the end."""
    size = 4 * count
    within = int(np.searchsorted(at, len(data) - size, "right"))
    picked = at_any(data, f"V{size}")[at[:within]]
    if within < len(at):
        last = data[at[within]:] + bytes(size)
        picked = np.concatenate((picked, at_any(last, f"V{size}")[at[within:] - at[within]]))
    found: Words = picked.view(f"{order}u4").reshape(len(at), count).astype(np.uint32, copy=False)
    return found


def picked(column: npt.NDArray[Number], ascending: Column) -> npt.NDArray[Number]:
    """Returns what a column has at these places, which ascend: the column itself if they are all."""
    return column if len(ascending) == len(column) else column.take(ascending)


def are_in_order(stamp: Column) -> bool:
    """Returns whether no stamp is before the one in front of it."""
    return bool((stamp[1:] >= stamp[:-1]).all())


def are_stamps(stamp: Column) -> bool:
    """Returns whether a capture can have all of these stamps."""
    return not len(stamp) or 0 <= int(stamp.min()) and int(stamp.max()) < END_OF_STAMPS
