"""Reads a file's bytes, unpacked where they are compressed by gzip, zstd or xz, in bounded memory."""
import lzma
import os
import zlib
from collections.abc import Callable
from typing import BinaryIO, Protocol

import zstandard

from afdx.recordings.faults import Damaged

PIECE = 64 * 1024  # compressed bytes that are read at once
ZSTD_PIECE = 2 * 1024  # its library answers all that a piece unpacks to, which may be 30,000 times as much
MEMORY = 256 * 1024 * 1024  # the most that unpacking may take


class Unpacker(Protocol):
    """Unpacks one member of a compressed file."""

    @property
    def eof(self) -> bool: ...

    @property
    def unused_data(self) -> bytes: ...

    def unpack(self, packed: bytes, most: int) -> tuple[bytes, bytes]:
        """Returns what was unpacked and what is left of the packed bytes."""


class Gzip:
    """Unpacks gzip."""

    def __init__(self) -> None:
        self.library = zlib.decompressobj(wbits=31)

    @property
    def eof(self) -> bool:
        return self.library.eof

    @property
    def unused_data(self) -> bytes:
        return self.library.unused_data

    def unpack(self, packed: bytes, most: int) -> tuple[bytes, bytes]:
        data = self.library.decompress(packed, most)
        return data, b"" if self.library.eof else self.library.unconsumed_tail


class Xz:
    """Unpacks xz, whose library keeps what is left."""

    def __init__(self) -> None:
        self.library = lzma.LZMADecompressor(lzma.FORMAT_XZ, memlimit=MEMORY)

    @property
    def eof(self) -> bool:
        return self.library.eof

    @property
    def unused_data(self) -> bytes:
        return self.library.unused_data

    def unpack(self, packed: bytes, most: int) -> tuple[bytes, bytes]:
        return self.library.decompress(packed, most), b""


class Zstd:
    """Unpacks zstd, of small pieces."""

    def __init__(self) -> None:
        self.library = zstandard.ZstdDecompressor(max_window_size=MEMORY // 2).decompressobj()

    @property
    def eof(self) -> bool:
        return bool(self.library.eof)

    @property
    def unused_data(self) -> bytes:
        return bytes(self.library.unused_data)

    def unpack(self, packed: bytes, most: int) -> tuple[bytes, bytes]:
        return self.library.decompress(packed[:ZSTD_PIECE]), packed[ZSTD_PIECE:]


class Skippable:
    """Passes over a skippable frame of zstd, which holds none of what was compressed (RFC 8878)."""

    HEADER = 8  # bytes: its magic, and how many follow

    def __init__(self) -> None:
        self.header = b""
        self.missing = 0  # bytes after the header
        self.eof = False
        self.unused_data = b""

    def unpack(self, packed: bytes, most: int) -> tuple[bytes, bytes]:
        if len(self.header) < self.HEADER:
            taken = self.HEADER - len(self.header)
            self.header, packed = self.header + packed[:taken], packed[taken:]
            self.missing = int.from_bytes(self.header[4:], "little")
        passed = min(self.missing, len(packed))
        self.missing -= passed
        self.eof = len(self.header) == self.HEADER and not self.missing
        return b"", packed[passed:]


Format = dict[bytes, Callable[[], Unpacker]]  # what unpacks a member, by its magic
SKIPPABLE = [number.to_bytes(4, "little") for number in range(0x184D2A50, 0x184D2A60)]
FORMATS: list[Format] = [
    {bytes.fromhex("1f8b"): Gzip},
    {bytes.fromhex("28b52ffd"): Zstd, **dict.fromkeys(SKIPPABLE, Skippable)},
    {bytes.fromhex("fd377a585a00"): Xz},
]
MAGIC = 6  # bytes of the longest magic


class Unpacked:
    """Is what a file has, unpacked. After its end `cut` says whether the file ends within compressed bytes."""

    def __init__(self, file: BinaryIO) -> None:
        self.file = file
        self.cut = False
        self.count = 0  # bytes that were unpacked
        self.packed = file.read(MAGIC)
        self.format = next((one for one in FORMATS if member_of(one, self.packed)), None)
        self.member = member_of(self.format, self.packed) if self.format else None
        self.ended = False

    def read(self, most: int, rest: bytes) -> bytes:
        """Returns the rest of what was read last, and the next bytes: as many as were asked for, fewer only at the
        end."""
        if self.format is None:
            before, self.packed = rest or self.packed, b""
            self.file.seek(-len(before), os.SEEK_CUR)  # to read them again takes less than to join them
            return self.file.read(len(rest) + most)
        parts = [rest]
        missing = most
        while missing > 0 and not self.ended:
            parts.append(self.unpacked(missing))
            missing -= len(parts[-1])
        return b"".join(parts)

    def unpacked(self, most: int) -> bytes:
        """Returns some bytes, or none while more has to be read."""
        assert self.member is not None
        if self.member.eof:
            self.next_member()
            return b""
        try:
            data, self.packed = self.member.unpack(self.packed, most)
        except (zlib.error, lzma.LZMAError, zstandard.ZstdError) as error:
            raise Damaged(str(error)) from error
        self.count += len(data)
        if not data and not self.packed and not self.member.eof:
            self.packed = self.file.read(PIECE)
            if not self.packed:
                self.ended = self.cut = True
        return data

    def next_member(self) -> None:
        """Begins the member after one that has ended; zeros may lie between them."""
        assert self.format is not None and self.member is not None
        rest = (self.member.unused_data + self.packed).lstrip(b"\0")
        while len(rest) < MAGIC:
            more = self.file.read(PIECE)
            if not more:
                break
            rest = (rest + more).lstrip(b"\0")
        self.ended = any(len(rest) < len(magic) and magic.startswith(rest) for magic in self.format)
        self.cut = bool(rest) and self.ended
        self.member, self.packed = member_of(self.format, rest), rest
        if not self.ended and self.member is None:
            raise Damaged("bytes after its end")


def member_of(form: Format, packed: bytes) -> Unpacker | None:
    """Returns what unpacks the member that begins so; None if none of this format does."""
    return next((made() for magic, made in form.items() if packed.startswith(magic)), None)
