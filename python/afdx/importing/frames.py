"""Looks at frames: at their sender, their network and their check sequence."""
import zlib
from dataclasses import dataclass

import numpy as np
import numpy.typing as npt

from afdx.recordings.columns import Batch, Column, at_any, picked

Numbers = npt.NDArray[np.int32]
Octets = npt.NDArray[np.uint8]

CHECK_SEQUENCE = 4
TAG, MOST_TAGS = 4, 2  # bytes of a VLAN tag, and how many a frame may have
CUSTOMER, SERVICE = 0x0081, 0xA888  # 81-00 and 88-a8, with which a tag begins
ADDRESSES = 12  # bytes of both addresses: the last three are the end system's number and the network
NONE = -1  # the end system of a frame too short for its addresses
SHORTEST = 18  # bytes of a frame of which a check sequence is looked for


@dataclass(frozen=True)
class Heads:
    """Says of each frame of a batch where it is from, and how long its tags are."""
    end_system: Numbers  # NONE if it was captured without its addresses
    network: Octets  # 0 then
    tags: Octets  # bytes, before which the addresses lie


def heads(batch: Batch) -> Heads:
    """Returns what the first bytes of a batch's frames say."""
    end_system = (batch.sender >> 8).astype(np.uint16).byteswap().astype(np.int32)
    network = (batch.sender >> 24).astype(np.uint8)
    short = batch.captured < ADDRESSES
    if short.any():
        end_system[short] = NONE
        network[short] = 0
    return Heads(end_system, network, tags_of(batch))


def tags_of(batch: Batch) -> Octets:
    """Returns how many bytes of VLAN tags follow the addresses of each frame."""
    tags, some = np.zeros(len(batch.start), np.uint8), np.arange(len(batch.start))
    for place in range(ADDRESSES, ADDRESSES + MOST_TAGS * TAG, TAG):
        some = some[picked(batch.captured, some) >= place + TAG]
        kind = at_any(batch.data, "<u2")[picked(batch.start, some) + place]
        some = some[(kind == CUSTOMER) | (kind == SERVICE)]
        tags[some] += TAG
    return tags


def is_checked(frame: bytes) -> bool:
    """Returns whether the last four bytes are the check sequence of those before."""
    return zlib.crc32(frame[:-CHECK_SEQUENCE]) == int.from_bytes(frame[-CHECK_SEQUENCE:], "little")


class CheckSequences:
    """Finds out whether the frames of one interface were recorded with their check sequence."""

    FIRST = 256  # frames that are looked at before this is decided
    LATER = 8  # and in each batch after that

    def __init__(self) -> None:
        self.looked = 0
        self.right = 0
        self.unknown = 0  # cut frames that came before this was decided
        self.are_there: bool | None = None

    def look(self, batch: Batch, mine: Column) -> bool:
        """Looks at whole frames of these records; returns whether check sequences are there."""
        most = self.FIRST if self.are_there is None else self.LATER
        some = whole(batch, mine[:2 * most])[:most]
        if len(some) < most:
            some = whole(batch, mine)[:most]
        begins, ends = batch.start[some], batch.start[some] + batch.captured[some]
        frames = [batch.data[begin:end] for begin, end in zip(begins.tolist(), ends.tolist())]
        self.looked += len(frames)
        self.right += sum(map(is_checked, frames))
        if self.are_there is None and frames:
            self.are_there = 2 * self.right >= len(frames)
        if self.are_there is None:
            self.unknown += int((batch.captured[mine] < batch.original[mine]).sum())
        return self.are_there is True


def whole(batch: Batch, mine: Column) -> Column:
    """Returns those of these records whose frames are whole, and long enough for a check sequence."""
    captured = batch.captured[mine]
    found: Column = mine[(captured == batch.original[mine]) & (captured >= SHORTEST)]
    return found


def without_check_sequence(captured: Column, original: Column, has: npt.NDArray[np.bool_]) -> tuple[Column, Column]:
    """Returns the lengths of frames of which some have a check sequence that is taken off."""
    if not has.any():
        return captured, original
    original = np.where(has, np.maximum(original - CHECK_SEQUENCE, 0), original)
    return np.minimum(captured, original), original
