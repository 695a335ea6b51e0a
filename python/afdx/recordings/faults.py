"""Says what is wrong with a recording, and where."""
from dataclasses import dataclass


@dataclass(frozen=True)
class Place:
    """A record, a block of pcapng, a header, or how far a file was unpacked; the offset is that in the recording when
    unpacked."""
    file: str
    what: str  # "record 17", "block 3", "header", "unpacked"
    offset: int

    def __str__(self) -> str:
        return f"{self.file}, {self.what}, offset {self.offset}"


class RecordingFault(Exception):
    """Is raised for a recording that cannot be used, from its fault on."""

    def __init__(self, what: str, place: Place) -> None:
        super().__init__(f"{what}, {place}")


class RecordFault(RecordingFault):
    """Is raised for a record of a piece; `before` is how many of the piece were before it."""

    def __init__(self, what: str, place: Place, before: int) -> None:
        super().__init__(what, place)
        self.before = before


class Damaged(Exception):
    """Is raised for compressed bytes that cannot be unpacked."""
