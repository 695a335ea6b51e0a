"""Reads pcap 2.4, of microseconds or nanoseconds, in either byte order, and writes what afdx reads."""
import struct
from collections.abc import Iterator
from typing import Self

import numpy as np
import numpy.typing as npt

from afdx.recordings.columns import SECOND, SENDER, Batch, Column, Interface, Origin, wheres, words
from afdx.recordings.faults import Place, RecordingFault
from afdx.recordings.form import MOST_CAPTURED, Form
from afdx.recordings.walking import RECORD, records_of

HEADER = 24
# the first four bytes: the byte order, and the nanoseconds of a unit of the fraction
MAGICS = {
    bytes.fromhex("a1b2c3d4"): (">", 1000),
    bytes.fromhex("d4c3b2a1"): ("<", 1000),
    bytes.fromhex("a1b23c4d"): (">", 1),
    bytes.fromhex("4d3cb2a1"): ("<", 1),
}
TO_SENDER = (RECORD + SENDER) // 4 + 1  # words of a record from its header to the end of its frame's source address
LINK_TYPE = 0x03FF_FFFF  # the rest of its word may say how long a check sequence the frames have
WRITTEN = struct.pack("<IHHiIII", 0xA1B23C4D, 2, 4, 0, 0, MOST_CAPTURED, 1)  # a capture without records


class Pcap(Form):
    """Reads the records of pcap."""

    unit = "record"

    def __init__(self, name: str, header: bytes) -> None:
        super().__init__(name)
        self.order, self.fraction = MAGICS[header[:4]]
        major, minor, link_type = struct.unpack(f"{self.order}4xHH12xI", header)
        if (major, minor) != (2, 4):
            raise RecordingFault(f"pcap version {major}.{minor}", Place(name, "header", 4))
        self.interfaces = [Interface(0, "", link_type & LINK_TYPE, self.fraction)]
        self.offset = self.used = HEADER

    @classmethod
    def of(cls, begin: bytes, name: str) -> Self | None:
        """Returns the reader of a recording that begins so, if it is pcap with a whole header."""
        return cls(name, begin[:HEADER]) if begin[:4] in MAGICS and len(begin) >= HEADER else None

    def batches(self, data: bytes) -> Iterator[Batch]:
        at, after = records_of(data, self.order)
        origin = Origin(self.place, self.count + 1, self.offset)
        yield from self.up_to_fault(lambda some: self.batch(data, some, after, origin), at, origin)

    def batch(self, data: bytes, at: Column, after: int, origin: Origin) -> Batch:
        """Returns the records at these places that lie whole in data."""
        where = wheres(at)
        fields = words(data, at, TO_SENDER, self.order)
        captured = fields[:, 2].astype(np.int64)
        self.refuse(captured > MOST_CAPTURED, where, origin, "{} bytes captured", captured)
        whole = len(at) - (len(at) > 0 and int(at[-1] + captured[-1]) + RECORD > len(data))
        used = after if whole == len(at) else int(at[-1])
        at, where, fields, captured = at[:whole], where[:whole], fields[:whole], captured[:whole]
        nanos = fields[:, 1].astype(np.int64)
        nanos *= self.fraction
        self.refuse(nanos >= SECOND, where, origin, "a fraction of {} ns", nanos)
        stamp = fields[:, 0].astype(np.int64)
        stamp *= SECOND
        stamp += nanos
        self.refuse_late(stamp, where, origin)
        self.count += whole
        self.used = used
        self.offset += used
        said = fields[:, 3].astype(np.int64)
        original = np.maximum(said, captured)
        is_written = self.order == "<" and self.fraction == 1 and bool((original == said).all())
        sender = fields[:, -1] if self.order == "<" else fields[:, -1].byteswap()
        return Batch(data, origin, where, at + RECORD, captured, original, stamp,
                     np.broadcast_to(np.int64(0), (whole,)), sender, is_written)


def headers(stamp: Column, captured: Column, original: Column) -> npt.NDArray[np.void]:
    """Returns the headers of records as afdx writes them."""
    fields = np.empty((len(stamp), 4), "<u4")
    seconds = stamp // SECOND  # np.divmod takes five times as long
    fields[:, 0] = seconds
    fields[:, 1] = stamp - seconds * SECOND
    fields[:, 2] = captured
    fields[:, 3] = original
    made: npt.NDArray[np.void] = fields.view(f"V{RECORD}")[:, 0]
    return made
