"""Reads and writes captures and frames plainly, for the scripts and for the package's tests.

The models have a reader and a writer of their own, so that what they say rests on nothing from here. What a test writes by hand,
byte by byte, it keeps.
"""
import struct
import zlib
from collections.abc import Iterable, Iterator
from dataclasses import dataclass, field
from fractions import Fraction

SECOND = 10**9
END = (2**32 - 1) * SECOND
CHECK_SEQUENCE = 4
GREATEST_RECORD = 262_144
ETHERNET = 1
SECTION = bytes.fromhex("0a0d0d0a")  # the kind of block with which a pcapng recording begins
MAGICS = {("<", 1): "4d3cb2a1", (">", 1): "a1b23c4d", ("<", 1000): "d4c3b2a1", (">", 1000): "a1b2c3d4"}  # by order and ns of a unit


@dataclass(frozen=True)
class Record:
    stamp: int
    frame: bytes
    original: int = -1  # as long as the frame, if it is below that
    interface: int = 0
    link_type: int = field(default=ETHERNET, compare=False, repr=False)

    @property
    def length(self) -> int:
        return max(self.original, len(self.frame))


class Faulty(Exception):
    """Is raised for a recording that has to be refused."""


# --- Frames ---


def frame(link: int, size: int, constant: str = "03000000", end_system: int = 0, network: int = 1, fill: bytes = b"\0") -> bytes:
    """Makes a frame of `size` bytes with the check sequence, which is left out, as a capture leaves it out."""
    head = struct.pack(">4sH3sHBH", bytes.fromhex(constant), link, b"\2\0\0", end_system, network, 0x0800)
    length = max(size - CHECK_SEQUENCE, 0)
    return head.ljust(length, fill)[:length]


def checked(data: bytes) -> bytes:
    """Puts the check sequence behind a frame."""
    return data + zlib.crc32(data).to_bytes(CHECK_SEQUENCE, "little")


# --- pcap ---


def header(order: str = "<", unit: int = 1, link_type: int = 1, version: tuple[int, int] = (2, 4),
           others: tuple[int, int, int] = (0, 0, GREATEST_RECORD)) -> bytes:
    """Makes the header of a capture whose fractions are of `unit` ns; `others` are zone, accuracy and snapshot length."""
    return bytes.fromhex(MAGICS[order, unit]) + struct.pack(f"{order}HH4I", *version, *others, link_type)


HEADER = header()


def words(seconds: int, fraction: int, captured: int, original: int, order: str = "<") -> bytes:
    """Makes the header of a record, whether or not one may be so."""
    return struct.pack(f"{order}4I", seconds, fraction, captured, original)


def record(stamp: int, data: bytes, original: int | None = None, order: str = "<", unit: int = 1) -> bytes:
    """Makes a record; the original length is the captured one if none is given."""
    seconds, nanos = divmod(stamp, SECOND)
    return words(seconds, nanos // unit, len(data), len(data) if original is None else original, order) + data


def pcap(records: Iterable[Record], order: str = "<", unit: int = 1, link_type: int = 1) -> bytes:
    """Makes a capture: what afdx writes, little-endian and in nanoseconds, if nothing else is asked for."""
    texts = (record(one.stamp, one.frame, one.length, order, unit) for one in records)
    return header(order, unit, link_type) + b"".join(texts)


# --- pcapng ---


def block(order: str, kind: int, body: bytes) -> bytes:
    body += bytes(-len(body) % 4)
    size = len(body) + 12
    return struct.pack(f"{order}II", kind, size) + body + struct.pack(f"{order}I", size)


def option(order: str, code: int, value: bytes) -> bytes:
    return struct.pack(f"{order}HH", code, len(value)) + value + bytes(-len(value) % 4)


def section(order: str = "<", options: bytes = b"") -> bytes:
    return block(order, 0x0A0D0D0A, struct.pack(f"{order}IHHq", 0x1A2B3C4D, 1, 0, -1) + options)


def interface(order: str = "<", name: str = "", resolution: int = 9, later: int = 0, link_type: int = 1) -> bytes:
    options = option(order, 2, name.encode()) if name else b""
    options += option(order, 9, bytes([resolution])) if resolution != 6 else b""
    options += option(order, 14, struct.pack(f"{order}q", later)) if later else b""
    return block(order, 1, struct.pack(f"{order}HHI", link_type, 0, 0) + options + (bytes(4) if options else b""))


def packet(one: Record, order: str = "<", units: int | None = None, options: bytes = b"") -> bytes:
    """Returns a packet's block; the stamp is in the interface's units, else in nanoseconds."""
    stamp = one.stamp if units is None else units
    body = struct.pack(f"{order}5I", one.interface, stamp >> 32, stamp & 0xFFFFFFFF, len(one.frame), one.length)
    return block(order, 6, body + one.frame + bytes(-len(one.frame) % 4) + options)


def pcapng(records: Iterable[Record], names: Iterable[str], order: str = "<", options: bytes = b"") -> bytes:
    blocks = [*(interface(order, name) for name in names), *(packet(one, order) for one in records)]
    return b"".join([section(order, options), *blocks])


# --- Reading ---


def read(text: bytes) -> tuple[list[Record], bool]:
    """Returns the records that lie whole in a recording, and whether it breaks off. Raises Faulty."""
    magics = {bytes.fromhex(magic) for magic in MAGICS.values()} | {SECTION}
    if len(text) < len(HEADER) and any(magic.startswith(text[:4]) for magic in magics) and text[:4] != SECTION:
        return [], True
    if text[:4] not in magics:
        raise Faulty("magic")
    return read_pcapng(text) if text[:4] == SECTION else read_pcap(text)


def form_of(text: bytes) -> tuple[str, int]:
    """Says in which order a capture's words are, and how many ns a unit of its fractions is."""
    return next(form for form, magic in MAGICS.items() if bytes.fromhex(magic) == text[:4])


def rows_of(text: bytes, order: str = "<") -> Iterator[tuple[int, int, int, int, bytes]]:
    """Yields the four words of each record and its bytes, of the last one as far as they go."""
    at = len(HEADER)
    while at + 16 <= len(text):
        seconds, fraction, captured, original = struct.unpack_from(f"{order}4I", text, at)
        yield seconds, fraction, captured, original, text[at + 16:at + 16 + captured]
        at += 16 + captured


def read_pcap(text: bytes) -> tuple[list[Record], bool]:
    order, unit = form_of(text)
    if struct.unpack_from(f"{order}HH", text, 4) != (2, 4):
        raise Faulty("version")
    link_type = struct.unpack_from(f"{order}I", text, 20)[0] % 2**26  # above that is the check sequences' length
    records: list[Record] = []
    at = len(HEADER)
    for seconds, fraction, captured, original, data in rows_of(text, order):
        if captured > GREATEST_RECORD:
            raise Faulty("captured")
        if len(data) < captured:
            return records, True
        if fraction * unit >= SECOND or seconds == 2**32 - 1:
            raise Faulty("stamp")
        records.append(Record(seconds * SECOND + fraction * unit, data, original, 0, link_type))
        at += 16 + captured
    return records, at < len(text)


def read_pcapng(text: bytes) -> tuple[list[Record], bool]:
    records: list[Record] = []
    order, at = "<", 0
    clocks: list[tuple[int, int, int]] = []  # units of a second, seconds later, and the link type
    before = 0  # interfaces of earlier sections
    while at + 12 <= len(text):
        if text[at:at + 4] == SECTION:
            if text[at + 8:at + 12] not in (bytes.fromhex("1a2b3c4d"), bytes.fromhex("4d3c2b1a")):
                raise Faulty("order")
            order = ">" if text[at + 8] == 0x1A else "<"
        kind, size = struct.unpack_from(f"{order}II", text, at)
        if size < 12 or size % 4 or size > 2**20 and kind in (0x0A0D0D0A, 1, 2, 3, 6):
            raise Faulty("size")
        if at + size > len(text):
            return records, True
        if struct.unpack_from(f"{order}I", text, at + size - 4)[0] != size:
            raise Faulty("size at the end")
        body = text[at + 8:at + size - 4]
        if kind == 0x0A0D0D0A:
            if size < 28 or struct.unpack_from(f"{order}H", body, 4)[0] != 1:
                raise Faulty("section")
            before = len(clocks)
        elif kind == 1:
            clocks.append((*clock_of(order, body), struct.unpack_from(f"{order}H", body)[0]))
        elif kind == 3:
            raise Faulty("no stamp")
        elif kind in (2, 6):
            records.append(packet_of(order, kind, body, clocks, before))
        at += size
    return records, at < len(text)


def clock_of(order: str, body: bytes) -> tuple[int, int]:
    if len(body) < 8:
        raise Faulty("interface")
    found: dict[int, bytes] = {}
    at = 8
    while at + 4 <= len(body):
        code, length = struct.unpack_from(f"{order}HH", body, at)
        if code == 0:
            break
        if at + 4 + length > len(body):
            raise Faulty("option")
        found.setdefault(code, body[at + 4:at + 4 + length])
        at += 4 + length + -length % 4
    resolution, later = found.get(9, b"\6"), found.get(14, bytes(8))
    if len(resolution) != 1 or len(later) != 8:
        raise Faulty("option's length")
    power, binary = resolution[0] & 127, resolution[0] > 127
    seconds, = struct.unpack(f"{order}q", later)
    if power > (63 if binary else 19) or abs(seconds) >= 2**33:
        raise Faulty("clock")
    return int((2 if binary else 10)**power), int(seconds)


def packet_of(order: str, kind: int, body: bytes, clocks: list[tuple[int, int, int]], before: int) -> Record:
    if len(body) < 20:
        raise Faulty("packet")
    number, high, low, captured, original = struct.unpack_from(f"{order}{'I' if kind == 6 else 'Hxx'}4I", body)
    if captured > GREATEST_RECORD or captured > len(body) - 20 or before + number >= len(clocks):
        raise Faulty("packet")
    units, later, link_type = clocks[before + number]
    stamp = int(Fraction((high << 32 | low) * SECOND, units) // 1) + later * SECOND
    if not 0 <= stamp < END:
        raise Faulty("stamp")
    return Record(stamp, body[20:20 + captured], original, before + number, link_type)
