"""Opens a recording, whatever its format, and reads it a piece at a time."""
from collections.abc import Iterator
from pathlib import Path

from afdx.recordings.columns import Batch, Interface
from afdx.recordings.faults import Damaged, Place, RecordingFault
from afdx.recordings.form import Form
from afdx.recordings.pcap import HEADER, MAGICS, Pcap
from afdx.recordings.pcapng import MAGIC, Pcapng
from afdx.recordings.unpacking import Unpacked

PIECE = 4 * 1024 * 1024  # bytes of a recording that are read at once


class Recording:
    """Is an open recording. After its last batch `broken` says where it breaks off, if it does."""

    def __init__(self, path: Path, name: str, piece: int = PIECE) -> None:
        self.path = path
        self.name = name
        self.piece = piece
        self.broken: Place | None = None
        self.read = 0  # bytes of the file
        self.form: Form | None = None

    @property
    def interfaces(self) -> list[Interface]:
        return self.form.interfaces if self.form else []

    @property
    def dropped(self) -> dict[int, int]:
        """Returns how many frames the recording says were dropped, by the place of the interface."""
        return self.form.dropped if self.form else {}

    def batches(self) -> Iterator[Batch]:
        """Returns all records in their order. Raises RecordingFault, and OSError with the file's name if it fails."""
        try:
            yield from self.all_batches()
        except OSError as error:
            error.filename = str(self.path)
            raise

    def all_batches(self) -> Iterator[Batch]:
        if self.path.exists() and not self.path.is_file():  # to open a pipe would be to wait for who writes it
            raise RecordingFault("no regular file", self.next_place())
        with self.path.open("rb", buffering=0) as file:
            unpacked = Unpacked(file)
            data = self.longer(unpacked, b"")
            self.form = form_of(data, self.name)
            more = len(data)
            data = data[self.form.used:] if self.form else b""
            while self.form and more:
                yield from self.form.batches(data)
                self.read = file.tell()
                rest = data[self.form.used:]
                data = b""  # its memory is free for the next piece: while it is in the caches
                data = self.longer(unpacked, rest)
                more = len(data) - len(rest)
            if self.form is None or data or self.form.ends_within or unpacked.cut:
                self.broken = self.next_place()

    def longer(self, unpacked: Unpacked, rest: bytes) -> bytes:
        """Returns the rest of a piece with the next piece at its end."""
        try:
            return unpacked.read(self.piece, rest)
        except Damaged as damaged:
            place = Place(self.name, "unpacked", unpacked.count)
            raise RecordingFault(f"damaged compressed bytes ({damaged})", place) from damaged

    def place(self, number: int, offset: int) -> Place:
        """Returns the place of a record that was read."""
        assert self.form is not None
        return self.form.place(number, offset)

    def next_place(self) -> Place:
        return self.form.next_place() if self.form else Place(self.name, "header", 0)


def form_of(begin: bytes, name: str) -> Form | None:
    """Returns the reader of a recording that begins so; None if it breaks off before its format can be told."""
    form = Pcap.of(begin, name) or Pcapng.of(begin, name)
    if form is None and (len(begin) >= HEADER or not any(magic.startswith(begin[:4]) for magic in [*MAGICS, MAGIC])):
        raise RecordingFault("neither pcap nor pcapng", Place(name, "header", 0))
    return form
