"""Defines what all formats of recordings have in common."""
from abc import ABC, abstractmethod
from collections.abc import Callable, Iterator
from typing import Any

import numpy as np
import numpy.typing as npt

from afdx.recordings.columns import END_OF_STAMPS, HALF, Batch, Column, Interface, Origin, are_stamps
from afdx.recordings.faults import Place, RecordFault

MOST_CAPTURED = 262_144


class Form(ABC):
    """Takes pieces of one recording, and answers the records that lie whole in them."""

    unit: str  # what its records are counted by

    def __init__(self, name: str) -> None:
        self.name = name
        self.interfaces: list[Interface] = []
        self.count = 0  # of records that were read
        self.offset = 0  # of the record after them
        self.used = 0  # bytes of the last data that are not needed again

    @property
    def dropped(self) -> dict[int, int]:
        """Returns how many frames the recording says were dropped, by the place of the interface."""
        return {}

    @property
    def ends_within(self) -> bool:
        """Returns whether the recording would break off here, though all bytes were used."""
        return False

    @abstractmethod
    def batches(self, data: bytes) -> Iterator[Batch]:
        """Returns the records that lie whole in data, which follows what was used before."""

    def up_to_fault(self, read: Callable[[Column], Batch], at: Column, origin: Origin) -> Iterator[Batch]:
        """Returns the records that are read at these places, the next ones of a piece; if one has a fault, those before
        the first that has, and raises its fault."""
        try:
            batch = read(at)
        except RecordFault as fault:
            yield from self.up_to_fault(read, at[:fault.before - (self.count + 1 - origin.number)], origin)
            raise
        yield batch

    def place(self, number: int, offset: int) -> Place:
        return Place(self.name, f"{self.unit} {number}", offset)

    def next_place(self) -> Place:
        return self.place(self.count + 1, self.offset)

    def refuse(self, faulty: npt.NDArray[np.bool_], where: Column, origin: Origin, what: str,
               of: npt.NDArray[np.integer[Any]]) -> None:
        """Raises the fault of the first record that has it; `{}` in its text is the record's number in `of`."""
        if faulty.any():
            first = int(faulty.argmax())
            its = int(where[first])
            raise RecordFault(what.format(int(of[first])), origin.place_of(its), its >> HALF)

    def refuse_late(self, stamp: Column, where: Column, origin: Origin) -> None:
        """Refuses stamps that no capture can have."""
        if not are_stamps(stamp):
            outside = (stamp < 0) | (stamp >= END_OF_STAMPS)
            self.refuse(outside, where, origin, "a stamp before 1970 or after 2106", stamp)
