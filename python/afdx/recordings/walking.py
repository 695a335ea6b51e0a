"""Finds where the records of a piece of pcap begin: each one's length leads to the next."""
import struct

import numpy as np
import numpy.typing as npt

from afdx.recordings.columns import HALF, Column, at_any, words

RECORD = 16  # bytes of a record's header
IN_A_LANE = 64  # records, about, after which one is guessed from which to go on too
NEAR = 8  # the part of a lane in which it is looked for
FIRST = 8 * 1024  # bytes in which it is seen how long records are
LEAST_LANES = 16
MOST_STEPS = 1024  # after which lanes are given up: the places that are kept stay few whatever the recording holds
AT_ONCE = 8  # steps before it is looked whether all lanes have come to their end
MANY = 64  # records of one length that are worth a look whether all are


def records_of(data: bytes, order: str) -> tuple[Column, int]:
    """Returns where the records begin whose headers are there, and where the one after them would."""
    places, at = of_one_length(data, order)
    if not len(places):
        places, at = in_lanes(data, order)
    found, at = one_by_one(data, order, at)
    return np.concatenate((places, np.array(found, np.int64))), at


def of_one_length(data: bytes, order: str) -> tuple[Column, int]:
    """Returns the records if they are many and all of one length, otherwise none."""
    if len(data) >= RECORD:
        size = RECORD + struct.unpack_from(f"{order}I", data, 8)[0]
        lengths = at_any(data, f"{order}u4", 8)[:len(data) - RECORD + 1:size]
        if len(lengths) >= MANY and (lengths[:MANY] == lengths[0]).all() and (lengths == lengths[0]).all():
            return np.arange(0, len(lengths) * size, size), len(lengths) * size
    return np.empty(0, np.int64), 0


def one_by_one(data: bytes, order: str, at: int) -> tuple[list[int], int]:
    """Goes from record to record to the end of data."""
    length = struct.Struct(f"{order}I").unpack_from
    last = len(data) - RECORD
    places: list[int] = []
    add = places.append
    while at <= last:
        add(at)
        at += RECORD + length(data, at + 8)[0]
    return places, at


def in_lanes(data: bytes, order: str) -> tuple[Column, int]:
    """Goes from many guessed records at once, each of them up to the next one, and answers as `one_by_one` does, but
    that the records end with a lane. If a guess was wrong, the lanes do not join, and no records are answered; nor are
    they if a lane holds too many."""
    begins = guesses(data, order)
    if len(begins) < LEAST_LANES:
        return np.empty(0, np.int64), 0
    fields = at_any(data, f"{order}u8", 4 if order == "<" else 8)  # at each place; the upper half is a length
    at, end = begins[:-1], begins[1:]
    # numpy takes less for columns of one length than for a column and a number
    header, half, past = (np.full(len(at), value) for value in (RECORD, np.uint64(HALF), begins[-1] + 1))
    steps: list[Column] = []
    while len(steps) < MOST_STEPS and (len(steps) % AT_ONCE or (at < end).any()):
        steps.append(at)
        after = np.right_shift(fields[at], half).view(np.int64)
        after += at
        after += header
        at = np.minimum(after, past, out=after)
    walked = np.array([*steps, at])
    is_within = walked < end
    after_last = np.minimum(is_within.sum(axis=0), len(steps))
    joins = walked[after_last, np.arange(len(end))] == end
    return (walked.T[is_within.T], int(begins[-1])) if joins.all() else (np.empty(0, np.int64), 0)


def guesses(data: bytes, order: str) -> Column:
    """Returns the first record and then one that seems to begin in each lane, where one does: the first place that has
    the upper half of the first record's second, if it fits."""
    first, after = one_by_one(data[:FIRST], order, 0)
    lane = IN_A_LANE * after // max(len(first), 1)
    half = 2 if order == "<" else 0  # where it lies in a header
    upper, near = data[half:half + 2], lane // NEAR
    found = [data.find(upper, begin, begin + near) for begin in range(lane, len(data) - lane, lane)] if lane else []
    at = np.array(found, np.int64) - half
    at = at[at > 0]
    return np.append(0, at[are_likely(data, at, order)])


def are_likely(data: bytes, at: Column, order: str) -> npt.NDArray[np.bool_]:
    """Returns where a record seems to begin: its lengths and the next record's second fit."""
    second, _, captured, original = words(data, at, 4, order).T
    after = at + RECORD + captured
    fits = (captured <= original) & (after + RECORD <= len(data))
    later = at_any(data, f"{order}u4")[np.where(fits, after, at)] - second
    likely: npt.NDArray[np.bool_] = fits & (later <= 1)
    return likely
