"""What is read of recordings: worked bytes, and plain reading of the same bytes."""
import gzip
import lzma
import struct
from collections.abc import Callable
from pathlib import Path

import pytest
import zstandard
from hypothesis import given
from hypothesis import strategies as some

import captures
from afdx.recordings.faults import RecordingFault
from afdx.recordings.reading import Recording
from captures import Faulty, Record, block, interface, option, packet, section, words
from tests import readback

AT = 1_768_471_200 * captures.SECOND
FRAME = bytes.fromhex("0300000000c9020000000120") + bytes(48)


def read(path: Path, text: bytes, piece: int = 4096) -> tuple[list[Record], Recording]:
    path.write_bytes(text)
    return readback.read(path, piece)


def fault(path: Path, text: bytes) -> str:
    with pytest.raises(RecordingFault) as caught:
        read(path, text)
    return str(caught.value)


def normal(records: list[Record]) -> list[Record]:
    return [Record(one.stamp, one.frame, one.length, one.interface) for one in records]


@pytest.mark.parametrize("header, fraction, nanos", [
    ("a1b2c3d4 0002 0004 00000000 00000000 00040000 00000001", "000f423f", 999_999_000),
    ("d4c3b2a1 0200 0400 00000000 00000000 00000400 01000000", "3f420f00", 999_999_000),
    ("a1b23c4d 0002 0004 00000000 00000000 00040000 00000001", "3b9ac9ff", 999_999_999),
    ("4d3cb2a1 0200 0400 00000000 00000000 00000400 01000000", "ffc99a3b", 999_999_999)])
def test_pcap_in_both_orders_and_units(tmp_path: Path, header: str, fraction: str, nanos: int) -> None:
    order = ">" if header.startswith("a1") else "<"
    text = bytes.fromhex(header) + struct.pack(f"{order}I", 7) + bytes.fromhex(fraction)
    text += struct.pack(f"{order}II", 2, 60) + b"\xaa\xbb"
    records, recording = read(tmp_path / "a", text)
    assert records == [Record(7 * captures.SECOND + nanos, b"\xaa\xbb", 60)]
    assert recording.broken is None


@pytest.mark.parametrize("resolution, later, units, stamp", [
    (6, 0, 1_000_001, 1_000_001_000),
    (9, 0, 1_000_000_001, 1_000_000_001),
    (0, 0, 5, 5_000_000_000),
    (12, 0, 1_999, 1),
    (19, 0, 10**19 + 10**10, 1_000_000_001),
    (0x80 | 1, 0, 3, 1_500_000_000),
    (0x80 | 30, 0, 2**30 + 1, 1_000_000_000),
    (0x80 | 34, 0, 2**34 + 18, 1_000_000_001),
    (0x80 | 63, 0, 2**63 + 2**62 + 1, 1_500_000_000),
    (9, -2, 3_000_000_007, 1_000_000_007),
    (6, 86_400, 1, 86_400_000_001_000)])
def test_pcapng_stamps(tmp_path: Path, resolution: int, later: int, units: int, stamp: int) -> None:
    text = section() + interface(resolution=resolution, later=later) + packet(Record(0, FRAME), units=units)
    assert read(tmp_path / "a", text)[0] == [Record(stamp, FRAME, 60)]


def test_pcapng_sections_of_both_orders(tmp_path: Path) -> None:
    """Checks that numbers of interfaces begin anew in a section; blocks of other kinds are passed over, also long
    ones."""
    text = section("<", option("<", 1, b"comment")) + interface("<", "left")
    text += block("<", 0xBAD, b"x" * 9001) + packet(Record(AT, FRAME), "<", options=option("<", 1, b"note") + bytes(4))
    text += section(">") + interface(">", "right") + interface(">", "third") + packet(Record(AT + 1, FRAME, 99, 1), ">")
    text += block(">", 2, struct.pack(">HHIIII", 0, 7, AT >> 32, AT + 2 & 0xFFFFFFFF, 60, 60) + FRAME)
    records, recording = read(tmp_path / "a", text)
    assert records == [Record(AT, FRAME, 60, 0), Record(AT + 1, FRAME, 99, 2), Record(AT + 2, FRAME, 60, 1)]
    assert [(one.number, one.name) for one in recording.interfaces] == [(0, "left"), (0, "right"), (1, "third")]


HEAD = section() + interface()
HUGE = words(1, 0, 262_145, 0)
PAST_ITS_END = block("<", 6, struct.pack("<5I", 0, 0, 0, 99, 99) + FRAME)
LONG_OPTION = block("<", 1, bytes(8) + option("<", 2, b"x" * 9)[:8])


@pytest.mark.parametrize("text, said", [
    (b"GIF89a", "neither pcap nor pcapng, a, header, offset 0"),
    (captures.pcap([])[:4] + b"\x03" + captures.pcap([])[5:], "pcap version 3.4, a, header, offset 4"),
    (captures.pcap([Record(AT, FRAME)]) + HUGE, "262145 bytes captured, a, record 2, offset 100"),
    (captures.pcap([]) + words(1, 10**9, 0, 0), "a fraction of 1000000000 ns, a, record 1, offset 24"),
    (captures.pcap([]) + words(2**32 - 1, 0, 0, 0),
     "a stamp before 1970 or after 2106, a, record 1, offset 24"),
    (section()[:8] + bytes(20), "byte-order magic 00000000, a, block 1, offset 0"),
    (HEAD + struct.pack("<3I", 5, 8, 8), "a block's length of 8 bytes, a, block 3, offset 60"),
    (HEAD + struct.pack("<4I", 5, 16, 0, 20),
     "a block's length of 16 bytes is not that at its end, a, block 3, offset 60"),
    (HEAD + block("<", 3, bytes(64)), "a simple packet block: its packet has no stamp, a, block 3, offset 60"),
    (HEAD + packet(Record(AT, FRAME, 60, 1)), "interface 1 is not declared, a, block 3, offset 60"),
    (HEAD + PAST_ITS_END, "99 bytes captured, past the block's end, a, block 3, offset 60"),
    (HEAD + struct.pack("<3I", 6, 2**30, 0), "a block of 1073741824 bytes, a, block 3, offset 60"),
    (section() + LONG_OPTION, "option 2 of 9 bytes, past the block's end, a, block 2, offset 28"),
    (section() + interface(resolution=20), "an interface's clock of resolution 20, 0 s later, a, block 2, offset 28"),
    (gzip.compress(captures.pcap([]))[:-1] + b"x",
     "damaged compressed bytes (Error -3 while decompressing data: incorrect length check), a, unpacked, offset 0"),
])
def test_faults_with_their_places(tmp_path: Path, text: bytes, said: str) -> None:
    assert fault(tmp_path / "a", text) == said


@pytest.mark.parametrize("piece", [300, 100_000])
def test_the_first_of_many_faults(tmp_path: Path, piece: int) -> None:
    """Checks that the fault that is told is the first by its place, whatever its kind, and that what is before it is
    answered."""
    good = [Record(AT + number, FRAME) for number in range(100)]
    fraction, long, late = words(1, 2 * 10**9, 0, 0), words(1, 0, 300_000, 0), words(2**32 - 1, 0, 0, 0)
    blocks = [captures.section(), captures.interface(), *map(packet, good)]
    for first, second, said in ((fraction, long, "a fraction of"), (late, fraction, "a stamp"), (late, long, "a stamp"),
                                (long, fraction, "300000 bytes captured")):
        text = captures.pcap(good) + first + captures.pcap(good)[24:] + second
        assert_fault(tmp_path / "a", text, piece, said, "a, record 101, offset 7624", 100)
    for first, second, said in ((packet(good[0], units=2**63), PAST_ITS_END, "a stamp"),
                                (packet(Record(AT, FRAME, 60, 1)), PAST_ITS_END, "interface 1"),
                                (PAST_ITS_END, packet(good[0])[:-4] + bytes(4), "99 bytes captured")):
        text = b"".join([*blocks, first, *map(packet, good), second])
        assert_fault(tmp_path / "a", text, piece, said, "a, block 103, offset 9260", 100)


def assert_fault(path: Path, text: bytes, piece: int, said: str, place: str, before: int) -> None:
    path.write_bytes(text)
    count = 0
    with pytest.raises(RecordingFault) as caught:
        for batch in Recording(path, path.name, piece).batches():
            count += len(batch.stamp)
    assert str(caught.value).startswith(said) and str(caught.value).endswith(place)
    assert count == before


def skippable(number: int, size: int) -> bytes:
    """Makes a skippable frame of zstd; the number is the last hexadecimal digit of its magic."""
    return struct.pack("<II", 0x184D2A50 + number, size) + b"\x28" * size


def compressed(text: bytes) -> list[bytes]:
    half = len(text) // 2
    first, second = zstandard.compress(text[:half]), zstandard.compress(text[half:])
    return [gzip.compress(text), zstandard.compress(text), lzma.compress(text),
            gzip.compress(text[:half]) + bytes(512) + gzip.compress(text[half:]),
            first + second, skippable(0, 4) + first + skippable(5, 0) + skippable(9, 70) + second + skippable(15, 9),
            lzma.compress(text[:half]) + bytes(4) + lzma.compress(text[half:])]


def test_compressed_recordings(tmp_path: Path) -> None:
    records = [Record(AT + number, bytes([number]) * 400) for number in range(200)]
    for packed in compressed(captures.pcap(records)):
        found, recording = read(tmp_path / "a", packed)
        assert found == normal(records)
        assert recording.broken is None


def test_compressed_recordings_that_break_off(tmp_path: Path) -> None:
    """Checks that what was whole before is a beginning of what was recorded, and that it is said that the rest is
    missing."""
    records = [Record(AT + number, bytes([number, number * 7 % 256]) * 200) for number in range(50)]
    for packed in compressed(captures.pcap(records)):
        for end in range(0, len(packed) - 1, 7):
            found, recording = read(tmp_path / "a", packed[:end])
            assert found == normal(records)[:len(found)]
            assert recording.broken or len(found) == len(records)


def test_a_long_skippable_frame(tmp_path: Path) -> None:
    text = skippable(3, 200_000) + zstandard.compress(captures.pcap([Record(AT, FRAME)]))
    assert read(tmp_path / "a", text)[0] == [Record(AT, FRAME, 60)]


@pytest.mark.parametrize("count", [1, 2000])
def test_bytes_after_compressed_ones(tmp_path: Path, count: int) -> None:
    """Checks that the offset is how long the recording is when unpacked, whether or not some of it was read as records
    before."""
    text = captures.pcap([Record(AT, FRAME)] * count)
    for packed in compressed(text)[:3]:
        assert fault(tmp_path / "a", packed + b"more of it") == (
            f"damaged compressed bytes (bytes after its end), a, unpacked, offset {24 + 76 * count}")


@pytest.mark.parametrize("pack, damaged", [
    (gzip.compress, "1f8b 09"), (zstandard.compress, "28b52ffd 08"), (lzma.compress, "fd377a585a00 ffff")])
@pytest.mark.parametrize("count", [1, 2000])
def test_how_far_damaged_bytes_were_unpacked(tmp_path: Path, pack: Callable[[bytes], bytes], damaged: str,
                                             count: int) -> None:
    """Checks that the offset is how long the first member is when unpacked: the second one is of no kind that there
    is."""
    packed = pack(captures.pcap([Record(AT, FRAME)] * count)) + bytes.fromhex(damaged) + bytes(100)
    said = fault(tmp_path / "a", packed)
    assert said.startswith("damaged compressed bytes (") and "bytes after" not in said
    assert said.endswith(f"), a, unpacked, offset {24 + 76 * count}")


def records_of(text: bytes, path: Path, piece: int) -> tuple[list[Record], bool] | None:
    try:
        found, recording = read(path, text, piece)
        return found, recording.broken is not None
    except RecordingFault:
        return None


def plainly(text: bytes) -> tuple[list[Record], bool] | None:
    try:
        records, broken = captures.read(text)
        return normal(records), broken
    except Faulty:
        return None


def sample(order: str) -> tuple[bytes, bytes]:
    records = [Record(AT + number * 10**8, FRAME[:12] + bytes([number]) * (number * 5 % 30), 90, number % 2)
               for number in range(4)]
    text = section(order, option(order, 1, b"of a test")) + interface(order, "port 1") + interface(order, "port 2", 6)
    for number, one in enumerate(records):
        text += packet(one, order, one.stamp // (1, 1000)[one.interface], option(order, 1, b"c" * number))
        text += block(order, 5 + number * 100, bytes(4 * number))
    return captures.pcap(records, order), text


SAMPLES = [text for order in "<>" for text in sample(order)]


def test_cut_at_any_byte(tmp_path: Path) -> None:
    for text in SAMPLES:
        for end in range(len(text) + 1):
            assert records_of(text[:end], tmp_path / "a", 300) == plainly(text[:end])


CHANGES = some.lists(some.tuples(some.integers(0, 10**6), some.binary(min_size=1, max_size=4)), max_size=4)


@given(some.sampled_from(SAMPLES), CHANGES, some.integers(24, 600))
def test_any_bytes_changed(tmp_path_factory: pytest.TempPathFactory, text: bytes, changes: list[tuple[int, bytes]],
                           piece: int) -> None:
    changed = bytearray(text)
    for at, by in changes:
        changed[at % len(text):at % len(text) + len(by)] = by
    path = tmp_path_factory.getbasetemp() / "changed"
    assert records_of(bytes(changed), path, piece) == plainly(bytes(changed))


DRAWN = some.lists(some.tuples(some.integers(0, 3 * 10**9), some.integers(0, 300)), max_size=60)


@given(DRAWN, some.integers(64, 5000), some.sampled_from("<>"))
def test_any_pieces(tmp_path_factory: pytest.TempPathFactory, drawn: list[tuple[int, int]], piece: int,
                    order: str) -> None:
    records = [Record(AT + stamp, bytes(size), size + 4) for stamp, size in drawn]
    path = tmp_path_factory.getbasetemp() / "pieces"
    assert read(path, captures.pcap(records, order), piece)[0] == normal(records)
    assert read(path, captures.pcapng(records, ["x"], order), piece)[0] == normal(records)
