"""Counts the frames of a recording that no source takes, by where they are from."""
from collections import Counter
from collections.abc import Iterator

import numpy as np

from afdx.importing.frames import NONE, Heads
from afdx.importing.taking import NETWORK, NETWORK_BITS
from afdx.recordings.columns import Batch, Column

SENDER_BITS = 17


class Left:
    """Counts frames by interface, network and end system."""

    def __init__(self) -> None:
        self.counts: Counter[int] = Counter()

    def add(self, batch: Batch, of: Heads, taken: list[Column]) -> None:
        """Counts the frames of a batch that are not among these, which sources have taken."""
        if any(len(its) == len(batch.stamp) for its in taken):
            return
        is_left = np.full(len(batch.stamp), True)
        for its in taken:
            is_left[its] = False
        left = np.flatnonzero(is_left)
        key = batch.interface.take(left) << NETWORK_BITS | NETWORK.take(of.network.take(left))
        key = (key << SENDER_BITS) + of.end_system.take(left) - NONE
        self.counts.update(dict(zip(*(column.tolist() for column in np.unique(key, return_counts=True)))))

    def rows(self) -> Iterator[tuple[int, int, int, int]]:
        """Returns, in order, the place of an interface, the number of a network, 0 for neither, an end system or NONE,
        and how many frames of theirs are left."""
        for key, count in sorted(self.counts.items()):
            place, sender = key >> SENDER_BITS, (key & (1 << SENDER_BITS) - 1) + NONE
            yield place >> NETWORK_BITS, place & (1 << NETWORK_BITS) - 1, sender, count
