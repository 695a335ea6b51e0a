"""Takes the frames of one recording that one source asks for to their ports."""
from dataclasses import dataclass, field
from typing import Any

import numpy as np
import numpy.typing as npt

from afdx.importing.chunks import Chunk
from afdx.importing.copying import copied, permuted, places_of
from afdx.importing.frames import ADDRESSES, CHECK_SEQUENCE, CheckSequences, Heads, Octets, without_check_sequence
from afdx.importing.ordering import Ordering
from afdx.importing.rules import NETWORKS, Source
from afdx.recordings.columns import (END_OF_STAMPS, ROOM, SECOND, Batch, Column, Interface, are_in_order, are_stamps,
                                     at_any, picked)
from afdx.recordings.faults import Place, RecordingFault
from afdx.recordings.pcap import headers
from afdx.recordings.reading import Recording

ETHERNET = 1
END_SYSTEMS = 65_536

Flags = npt.NDArray[np.bool_]
Ports = npt.NDArray[np.integer[Any]]  # their numbers

CUT, STRIPPED, KINDS = 4, 8, 16  # what a frame's kind is made of, beside its network's number
NETWORK_BITS = 2
NETWORK = np.zeros(256, np.int64)  # the number by its byte, from 1; 0 for any other
NETWORK[list(NETWORKS.values())] = range(1, len(NETWORKS) + 1)


@dataclass(frozen=True)
class Counts:
    """Says how many frames come to a port, and what of them."""
    frames: int
    cut: int
    stripped: int  # of which a check sequence was taken off
    networks: list[int]


@dataclass
class Port:
    """Orders a port's frames, and counts them."""
    ordering: Ordering
    frames: int = 0
    cut: int = 0
    stripped: int = 0
    first: int = END_OF_STAMPS
    last: int = -1
    networks: dict[str, int] = field(default_factory=lambda: dict.fromkeys(NETWORKS, 0))

    def add(self, source: int, chunk: Chunk, counts: Counts) -> None:
        """Takes frames of a source, with their records."""
        self.ordering.add(source, chunk)
        self.frames += counts.frames
        self.cut += counts.cut
        self.stripped += counts.stripped
        self.first = min(self.first, chunk.least)
        self.last = max(self.last, chunk.greatest)
        for network, count in zip(self.networks, counts.networks):
            self.networks[network] += count


@dataclass(frozen=True)
class Frames:
    """Are frames of a batch as they come to their ports."""
    record: Column  # their places in the batch
    stamp: Column
    captured: Column
    original: Column
    stripped: Flags  # of which a check sequence was taken off
    network: Octets
    tags: Octets  # bytes of VLAN tags that are taken off

    def __len__(self) -> int:
        return len(self.record)

    def at(self, places: Column) -> "Frames":
        return Frames(self.record.take(places), self.stamp.take(places), self.captured.take(places),
                      self.original.take(places), self.stripped.take(places), self.network.take(places),
                      self.tags.take(places))

    def counts(self, port_of: Ports) -> list[Counts]:
        """Counts the frames of each port, and of port 0."""
        kind = port_of.astype(np.int64)
        kind *= KINDS
        kind += NETWORK.take(self.network)
        for flags, what in ((self.captured < self.original, CUT), (self.stripped, STRIPPED)):
            if flags.any():
                kind += flags * np.int64(what)
        found = np.bincount(kind)
        found = np.append(found, np.zeros(-len(found) % KINDS, np.int64)).reshape(-1, 2, 2, CUT)
        columns = (found.sum(axis=(1, 2, 3)), found[:, :, 1].sum(axis=(1, 2)), found[:, 1].sum(axis=(1, 2)))
        networks = found.sum(axis=(1, 2))[:, 1:1 + len(NETWORKS)]
        return [Counts(*counts) for counts in zip(*(column.tolist() for column in (*columns, networks)))]

    def chunk(self, batch: Batch, place: Column | None, is_written: bool) -> Chunk:
        """Copies their records out of the batch, each to its place among them, or as they lie; with headers as afdx
        writes them, if these are not there, and without tags. Records in one run that are wanted so stay where they
        are."""
        length, stamp, where = self.captured + ROOM, self.stamp, picked(batch.where, self.record)
        start = picked(batch.start, self.record)
        begin = start - ROOM + self.tags
        is_sorted = place is None and are_in_order(stamp)
        if place is None:
            at = places_of(length)
            if is_written and int(at[-1]) == begin[-1] + length[-1] - begin[0]:
                text = memoryview(batch.data)[begin[0]:begin[0] + at[-1]]
                return Chunk(text, at, stamp, where, batch.origin, is_sorted, is_shared=True)
            to = at[:-1]
        else:
            at = places_of(permuted(length, place))
            to, stamp, where = at.take(place), permuted(stamp, place), permuted(where, place)
        text = copied(batch.data, begin, length, to)
        if not is_written:
            at_any(text, f"V{ROOM}")[to] = headers(self.stamp, self.captured, self.original)
        if self.tags.any():
            some, addresses = np.flatnonzero(self.tags), f"V{ADDRESSES}"
            at_any(text, addresses)[to[some] + ROOM] = at_any(batch.data, addresses)[start[some]]
        return Chunk(text, at, stamp, where, batch.origin, is_sorted)


def corrected(stamp: Column, source: Source, anchor: int) -> Column:
    """Returns stamps by the clock that the source's rules lead to; the drift counts from the anchor on."""
    if not source.drift_ppb and not source.offset_ns:
        return stamp
    seconds = (stamp - anchor) // SECOND
    nanos = stamp - anchor - seconds * SECOND
    moved: Column = stamp + source.offset_ns + seconds * source.drift_ppb + nanos * source.drift_ppb // SECOND
    return moved


class Destinations:
    """Are the ports of a source, which it has for all of its recordings."""

    def __init__(self, source: Source, ports: dict[str, Port]) -> None:
        self.names = list(dict.fromkeys(source.ports))
        self.ports = [ports[name] for name in self.names]
        # the number of the port, from 1, or 0 for none: by end system; at the end if a frame names none
        self.port_of = np.zeros(END_SYSTEMS + 1, np.min_scalar_type(len(self.names)))
        for end_system, name in source.end_systems.items():
            self.port_of[int(end_system)] = self.names.index(name) + 1


class Taker:
    """Takes frames by one source of the rules from one recording."""

    def __init__(self, number: int, source: Source, anchor: int, recording: Recording,
                 checks: dict[int, CheckSequences], to: Destinations) -> None:
        self.number = number
        self.source = source
        self.anchor = anchor
        self.recording = recording
        self.checks = checks  # by interface, the same for all sources of the recording that have the same `fcs`
        self.names, self.ports, self.port_of = to.names, to.ports, to.port_of
        self.tagged = 0  # frames that were taken and have a VLAN tag
        self.lag = 0  # ns by which the clock of its interfaces is behind the recording's newest stamp

    def take(self, batch: Batch, of: Heads) -> Column:
        """Takes the source's frames of a batch to their ports; returns which they are."""
        mine = self.chosen(batch)
        if self.source.network:
            mine = mine[picked(of.network, mine) == NETWORKS[self.source.network]]
        if not len(mine):
            return mine
        has = self.check_sequences(batch, mine)
        captured, original = without_check_sequence(picked(batch.captured, mine), picked(batch.original, mine), has)
        tags = self.tags_off(picked(of.tags, mine), captured)
        captured, original = captured - tags, original - tags
        stamp = corrected(picked(batch.stamp, mine), self.source, self.anchor)
        if self.source.tick:
            stamp = stamp + (original + CHECK_SEQUENCE) * self.source.tick
        self.refuse_outside(batch, mine, stamp)
        is_written = batch.is_written and not self.source.moves and not has.any() and not tags.any()
        frames = Frames(mine, stamp, captured, original, has, picked(of.network, mine), tags)
        if self.source.to:
            [counts] = frames.counts(np.zeros(len(mine), np.int64))
            self.ports[0].add(self.number, frames.chunk(batch, None, is_written), counts)
            return mine
        return self.share_out(batch, frames, self.port_of.take(picked(of.end_system, mine)), is_written)

    def share_out(self, batch: Batch, frames: Frames, port_of: Ports, is_written: bool) -> Column:
        """Brings frames to the ports of these numbers; returns those that have one."""
        if not port_of.all():
            some = np.flatnonzero(port_of)
            frames, port_of = frames.at(some), port_of.take(some)
        if len(frames):
            place = permuted(np.arange(len(frames)), np.argsort(port_of, kind="stable"))
            chunk = frames.chunk(batch, place, is_written)
            all_sorted, end = are_in_order(frames.stamp), 0
            for port, counts in zip(self.ports, frames.counts(port_of)[1:]):
                if counts.frames:
                    begin, end = end, end + counts.frames
                    is_sorted = all_sorted or are_in_order(chunk.stamp[begin:end])
                    port.add(self.number, chunk.part(begin, end, is_sorted), counts)
        return frames.record

    def chosen(self, batch: Batch) -> Column:
        """Returns the records of the source's interfaces."""
        interfaces = self.recording.interfaces
        asked = np.array([self.is_asked(interface) for interface in interfaces])
        if asked.all():
            mine = np.arange(len(batch.interface))
        else:
            mine = np.flatnonzero(asked[batch.interface])
        is_foreign = np.array([interface.link_type != ETHERNET for interface in interfaces])
        if (asked & is_foreign).any():
            self.refuse_foreign(batch, mine[is_foreign[batch.interface[mine]]])
        return mine

    def refuse_foreign(self, batch: Batch, foreign: Column) -> None:
        if len(foreign):
            link_type = self.recording.interfaces[batch.interface[foreign[0]]].link_type
            raise RecordingFault(f"link type {link_type}, not Ethernet", self.place_of(batch, int(foreign[0])))

    def is_asked(self, interface: Interface) -> bool:
        asked = self.source.interface
        return asked is None or asked == (interface.name if isinstance(asked, str) else interface.number)

    def is_named(self, end_system: int) -> bool:
        """Returns whether the source takes frames of an end system, or of NONE."""
        return self.source.to is not None or bool(self.port_of[end_system])

    def check_sequences(self, batch: Batch, mine: Column) -> npt.NDArray[np.bool_]:
        """Returns which of these frames have a check sequence to be taken off."""
        if self.source.fcs is False:
            return np.zeros(len(mine), np.bool_)
        has = self.looked_at(batch, mine)
        return np.full(len(mine), True) if self.source.fcs is True else has

    def tags_off(self, tags: Octets, captured: Column) -> Octets:
        """Returns how many bytes of tags are taken off frames that have so many; none behind which a frame ends."""
        return np.where(captured >= tags + ADDRESSES, tags, np.uint8(0)) if self.source.tags else np.zeros_like(tags)

    def looked_at(self, batch: Batch, mine: Column) -> npt.NDArray[np.bool_]:
        """Looks at some of these frames; returns which are of an interface whose frames have a check sequence."""
        if len(self.recording.interfaces) == 1:
            return np.full(len(mine), self.checks.setdefault(0, CheckSequences()).look(batch, mine))
        has = np.zeros(len(mine), np.bool_)
        interface = picked(batch.interface, mine)
        for place in np.flatnonzero(np.bincount(interface)).tolist():
            its = np.flatnonzero(interface == place)
            has[its] = self.checks.setdefault(place, CheckSequences()).look(batch, mine[its])
        return has

    def refuse_outside(self, batch: Batch, mine: Column, stamp: Column) -> None:
        if not are_stamps(stamp):
            outside = (stamp < 0) | (stamp >= END_OF_STAMPS)
            place = self.place_of(batch, int(mine[outside.argmax()]))
            raise RecordingFault("a stamp that the rules move before 1970 or after 2106", place)

    def place_of(self, batch: Batch, record: int) -> Place:
        return batch.origin.place_of(int(batch.where[record]))
