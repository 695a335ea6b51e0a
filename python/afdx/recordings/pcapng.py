"""Reads pcapng: its packets with their interfaces; blocks that hold no packet are passed over."""
import struct
from collections.abc import Iterator
from functools import partial
from typing import Any, Self

import numpy as np
import numpy.typing as npt

from afdx.recordings.columns import HALF, SECOND, SENDER, Batch, Column, Interface, Origin, joined, wheres, words
from afdx.recordings.faults import RecordingFault
from afdx.recordings.form import MOST_CAPTURED, Form

SECTION, INTERFACE, OLD_PACKET, SIMPLE, STATISTICS, PACKET = 0x0A0D0D0A, 1, 2, 3, 5, 6
IN_TURN = {SECTION, INTERFACE, SIMPLE, STATISTICS}  # blocks that are taken one by one
READ = {SECTION, INTERFACE, OLD_PACKET, SIMPLE, PACKET}
MAGIC = struct.pack("<I", SECTION)
ORDERS = {bytes.fromhex("1a2b3c4d"): ">", bytes.fromhex("4d3c2b1a"): "<"}
LEAST, MOST = 12, 1024 * 1024  # bytes of a block that is read; others may be longer
BEFORE_FRAME, AROUND_FRAME = 28, 32  # bytes of a packet's block before its frame, and in all beside it
MOST_FILLING = 3  # bytes after a frame, so that its block goes on at a multiple of 4
NAME, RESOLUTION, SECONDS_LATER = 2, 9, 14  # options of an interface
DROPPED = (5, 7)  # options of statistics: by the interface, and by the operating system
DROPPED_BEFORE = 4  # option of a packet: since the one before it of its interface
UNKNOWN = 0xFFFF  # how many were dropped before an old packet
LAST_POWER_OF_TEN, LAST_POWER_OF_TWO = 19, 63  # of the resolutions whose seconds 64 bits hold


class Clock:
    """Is an interface's unit of time: a power of 10 or of 2 to a second; and the seconds to be added."""

    def __init__(self, resolution: int = 6, seconds_later: int = 0) -> None:
        self.power = resolution & 0x7F
        self.binary = resolution >= 0x80
        self.seconds_later = seconds_later

    @property
    def is_usable(self) -> bool:
        most = LAST_POWER_OF_TWO if self.binary else LAST_POWER_OF_TEN
        return self.power <= most and abs(self.seconds_later) < 2**33

    @property
    def tick(self) -> int:
        """Returns the unit in ns, rounded up."""
        a_second: int = (2 if self.binary else 10) ** self.power
        return -(-SECOND // a_second)

    def nanoseconds(self, units: npt.NDArray[np.uint64]) -> Column:
        """Returns stamps in ns, rounded down; one that is too late for a capture is past all others."""
        a_second = np.uint64((2 if self.binary else 10) ** self.power)
        seconds, fraction = np.divmod(units, a_second)
        seconds = np.minimum(seconds, np.uint64(2**33)).astype(np.int64) + self.seconds_later
        return np.clip(seconds, -1, 2**32) * SECOND + self.nanos(fraction).astype(np.int64)

    def nanos(self, fraction: npt.NDArray[np.uint64]) -> npt.NDArray[np.uint64]:
        """Returns a fraction of a second in ns, rounded down, without passing 64 bits."""
        if not self.binary:
            finer = self.power - 9
            return fraction // np.uint64(10 ** finer) if finer > 0 else fraction * np.uint64(10 ** -finer)
        low = np.uint64(max(self.power - 34, 0))
        high = np.uint64(min(self.power, 34))
        whole = fraction >> low
        part = ((fraction & ((np.uint64(1) << low) - np.uint64(1))) * np.uint64(SECOND)) >> low
        return (whole * np.uint64(SECOND) + part) >> high


class Pcapng(Form):
    """Reads the blocks of pcapng."""

    unit = "block"

    def __init__(self, name: str) -> None:
        super().__init__(name)
        self.order = "<"
        self.section = 0  # the place of the section's first interface
        self.clocks: list[Clock] = []
        self.dropped_in_all: dict[int, int] = {}  # frames by the last statistics, by the interface's place
        self.dropped_before: dict[int, int] = {}  # the sums of what packets say, so too
        self.long = 0  # length of a long block that is being passed over
        self.passing = 0  # bytes of it until its length is there once more

    @classmethod
    def of(cls, begin: bytes, name: str) -> Self | None:
        """Returns the reader of a recording that begins so, if it is pcapng."""
        return cls(name) if begin[:4] == MAGIC else None

    @property
    def dropped(self) -> dict[int, int]:
        """Returns how many frames the recording says were dropped, by the place of the interface: what statistics say
        and what packets say are the same frames, so the greater of both."""
        places = self.dropped_in_all.keys() | self.dropped_before.keys()
        return {place: max(self.dropped_in_all.get(place, 0), self.dropped_before.get(place, 0)) for place in places}

    @property
    def ends_within(self) -> bool:
        return self.long > 0

    def batches(self, data: bytes) -> Iterator[Batch]:
        parts: list[Batch] = []
        try:
            for part in self.parts(data):
                parts.append(part)
        except RecordingFault:
            yield from joined(parts)
            raise
        yield from joined(parts)

    def parts(self, data: bytes) -> Iterator[Batch]:
        """Returns the packets between blocks that are taken in turn, up to the first fault, which it raises."""
        at = self.passed(data)
        origin = Origin(self.place, self.count + 1, self.offset - (at or 0))
        while at is not None:
            places, at = walk(data, at, self.order)
            if places:
                yield from self.up_to_fault(partial(self.packets, data, origin), np.array(places), origin)
                self.count += len(places)
            self.used, self.offset = at, origin.offset + at
            at = self.in_turn(data, at)

    def packets(self, data: bytes, origin: Origin, at: Column) -> Batch:
        """Returns the packets of these blocks."""
        where = wheres(at) + (self.count + 1 - origin.number << HALF)
        head = words(data, at, 2, self.order).astype(np.int64)
        kind, size = head[:, 0], head[:, 1]
        again = words(data, at + size - 4, 1, self.order)[:, 0]
        self.refuse(again != size, where, origin, "a block's length of {} bytes is not that at its end", size)

        mine = (kind == PACKET) | (kind == OLD_PACKET)
        at, where, kind, size = at[mine], where[mine], kind[mine], size[mine]
        self.refuse((size < AROUND_FRAME) | (size > MOST), where, origin, "a packet's block of {} bytes", size)
        fields = words(data, at, BEFORE_FRAME // 4, self.order).astype(np.int64)
        captured = fields[:, 5]
        self.refuse(captured > MOST_CAPTURED, where, origin, "{} bytes captured", captured)
        self.refuse(captured > size - AROUND_FRAME, where, origin, "{} bytes captured, past the block's end", captured)
        short, dropped = halves(fields[:, 2], self.order)
        interface = self.section + np.where(kind == PACKET, fields[:, 2], short)
        self.refuse(interface >= len(self.interfaces), where, origin, "interface {} is not declared", interface)
        stamp = self.stamps(fields, interface)
        self.refuse_late(stamp, where, origin)
        old = (kind == OLD_PACKET) & (dropped != UNKNOWN)
        if old.any():
            self.count_dropped(dropped[old], interface[old])
        more = size - captured > AROUND_FRAME + MOST_FILLING
        if more.any():
            its = np.flatnonzero(more & (kind == PACKET))
            begin = (at + BEFORE_FRAME + captured + -captured % 4)[its]
            self.count_by_options(data, begin, (at + size - 4)[its], interface[its])
        original = np.maximum(fields[:, 6], captured)
        sender = words(data, at + BEFORE_FRAME + SENDER, 1, "<")[:, 0]
        return Batch(data, origin, where, at + BEFORE_FRAME, captured, original, stamp, interface, sender)

    def stamps(self, fields: Column, interface: Column) -> Column:
        """Returns the packets' stamps, each by its interface's clock."""
        units = (fields[:, 3].astype(np.uint64) << np.uint64(32)) | fields[:, 4].astype(np.uint64)
        stamp = np.empty(len(units), np.int64)
        for place in np.unique(interface):
            its = interface == place
            stamp[its] = self.clocks[place].nanoseconds(units[its])
        return stamp

    def in_turn(self, data: bytes, at: int) -> int | None:
        """Takes the block at this place; returns where the next one begins, or None if more bytes are needed."""
        if len(data) - at < LEAST:
            return None
        if data[at:at + 4] == MAGIC:
            self.order = self.order_of(data[at + 8:at + 12])
        kind: int
        size: int
        kind, size = struct.unpack_from(f"{self.order}II", data, at)
        if size < LEAST or size % 4:
            raise self.fault(f"a block's length of {size} bytes")
        if kind not in READ and (kind != STATISTICS or size > MOST):
            self.pass_over(size, len(data) - at)
            return None
        if size > MOST:
            raise self.fault(f"a block of {size} bytes")
        if len(data) - at < size:
            return None
        self.take(kind, data[at:at + size])
        self.count += 1
        self.used, self.offset = at + size, self.offset + size
        return at + size

    def take(self, kind: int, block: bytes) -> None:
        """Takes a section's or an interface's block."""
        if struct.unpack(f"{self.order}I", block[-4:])[0] != len(block):
            raise self.fault(f"a block's length of {len(block)} bytes is not that at its end")
        if kind == STATISTICS:
            self.take_statistics(block)
            return
        if kind == SIMPLE:
            raise self.fault("a simple packet block: its packet has no stamp")
        if len(block) < (28 if kind == SECTION else 20):
            raise self.fault(f"a block of {len(block)} bytes, too short for its kind")
        if kind == INTERFACE:
            self.add_interface(block)
            return
        self.section = len(self.interfaces)
        major, = struct.unpack_from(f"{self.order}H", block, 12)
        if major != 1:
            raise self.fault(f"pcapng version {major}")

    def take_statistics(self, block: bytes) -> None:
        """Takes how many frames of an interface were dropped up to here; what cannot be read is passed over."""
        if len(block) < 24:
            return
        place = self.section + struct.unpack_from(f"{self.order}I", block, 8)[0]
        try:
            options = self.options(block[20:-4])
        except RecordingFault:
            return
        counts = [options[code] for code in DROPPED if len(options.get(code, b"")) == 8]
        if place < len(self.interfaces) and counts:
            self.dropped_in_all[place] = sum(struct.unpack(f"{self.order}Q", count)[0] for count in counts)

    def count_dropped(self, count: npt.NDArray[np.integer[Any]], interface: Column) -> None:
        """Adds how many frames were dropped before packets, each of its interface."""
        for place in np.unique(interface).tolist():
            self.dropped_before[place] = self.dropped_before.get(place, 0) + sum(count[interface == place].tolist())

    def count_by_options(self, data: bytes, at: Column, end: Column, interface: Column) -> None:
        """Adds what packets have as options, which lie from these places on up to these ends, an option of each at a
        time; what cannot be read is passed over."""
        while len(at):
            fields = words(data, at, 3, self.order)
            code, length = halves(fields[:, 0].astype(np.int64), self.order)
            after = at + 4 + length
            counts = (code == DROPPED_BEFORE) & (length == 8) & (after <= end)
            if counts.any():
                low, high = (1, 2) if self.order == "<" else (2, 1)
                count = fields[counts].astype(np.uint64)
                self.count_dropped(count[:, low] | count[:, high] << np.uint64(32), interface[counts])
            after += -length % 4
            goes_on = (code != 0) & (code != DROPPED_BEFORE) & (after + 4 <= end)
            at, end, interface = after[goes_on], end[goes_on], interface[goes_on]

    def add_interface(self, block: bytes) -> None:
        link_type, = struct.unpack_from(f"{self.order}H", block, 8)
        options = self.options(block[16:-4])
        resolution, later = options.get(RESOLUTION, b"\6"), options.get(SECONDS_LATER, bytes(8))
        if len(resolution) != 1 or len(later) != 8:
            raise self.fault("an interface's option of a wrong length")
        clock = Clock(resolution[0], struct.unpack(f"{self.order}q", later)[0])
        if not clock.is_usable:
            raise self.fault(f"an interface's clock of resolution {resolution[0]}, {clock.seconds_later} s later")
        name = options.get(NAME, b"").rstrip(b"\0").decode("utf-8", "replace")
        self.interfaces.append(Interface(len(self.interfaces) - self.section, name, link_type, clock.tick))
        self.clocks.append(clock)

    def options(self, text: bytes) -> dict[int, bytes]:
        """Returns a block's options, of a repeated one the first."""
        found: dict[int, bytes] = {}
        at = 0
        while at + 4 <= len(text):
            code, length = struct.unpack_from(f"{self.order}HH", text, at)
            if code == 0:
                break
            if at + 4 + length > len(text):
                raise self.fault(f"option {code} of {length} bytes, past the block's end")
            found.setdefault(code, text[at + 4:at + 4 + length])
            at += 4 + length + -length % 4
        return found

    def order_of(self, magic: bytes) -> str:
        if magic not in ORDERS:
            raise self.fault(f"byte-order magic {magic.hex()}")
        return ORDERS[magic]

    def pass_over(self, size: int, there: int) -> None:
        """Begins to pass over a block of which not all bytes are there."""
        if there < size - 4:
            self.long, self.passing = size, size - 4 - there
            self.used += there

    def passed(self, data: bytes) -> int | None:
        """Goes on passing over a long block; returns where the next one begins, or None if more bytes are needed."""
        self.used = min(self.passing, len(data))
        self.passing -= self.used
        if not self.long:
            return 0
        if self.passing or len(data) - self.used < 4:
            return None
        if struct.unpack_from(f"{self.order}I", data, self.used)[0] != self.long:
            raise self.fault(f"a block's length of {self.long} bytes is not that at its end")
        self.count += 1
        self.offset += self.long
        self.long = 0
        self.used += 4
        return self.used

    def fault(self, what: str) -> RecordingFault:
        return RecordingFault(what, self.next_place())


def halves(word: Column, order: str) -> tuple[Column, Column]:
    """Returns the halves of words as they follow each other in the recording."""
    low, high = word & 0xFFFF, word >> 16
    return (low, high) if order == "<" else (high, low)


def walk(data: bytes, at: int, order: str) -> tuple[list[int], int]:
    """Returns where blocks begin that lie whole in data, up to one that is taken in turn or has a wrong length."""
    head = struct.Struct(f"{order}II").unpack_from
    end = len(data)
    last = end - LEAST
    places: list[int] = []
    add = places.append
    while at <= last:
        kind, size = head(data, at)
        if kind in IN_TURN or size < LEAST or size & 3 or at + size > end:
            break
        add(at)
        at += size
    return places, at
