"""What the command afdx-import makes of recordings: numbers by hand, and a plain model of random ones."""
import gzip
import io
import os
import shutil
import signal
import struct
import sys
from collections.abc import Callable
from dataclasses import dataclass, replace
from pathlib import Path
from unittest.mock import Mock, patch

import pytest
from hypothesis import given
from hypothesis import strategies as some

import captures
from afdx import signals
from afdx.failure import Failure
from afdx.importing import ordering, running
from afdx.importing.command import main
from afdx.importing.frames import CheckSequences
from afdx.importing.rules import rules_of
from afdx.importing.running import Import
from captures import Faulty, Record, checked

SECOND = captures.SECOND
AT = 1_768_471_200 * SECOND


def frame(link: int = 201, end_system: int = 1, network: int = 0x20, size: int = 60, fill: int = 0x55) -> bytes:
    return captures.frame(link, size + 4, end_system=end_system, network=network, fill=bytes([fill]))


@dataclass
class Folder:
    """Is a folder with rules, recordings and what is made of them."""
    path: Path
    capsys: pytest.CaptureFixture[str]

    def run(self, rules: str, **recordings: bytes) -> tuple[int, list[str], list[str]]:
        """Imports the recordings by these rules and returns the status and the lines of standard output and standard
        error."""
        (self.path / "raw").mkdir(exist_ok=True)
        for name, text in recordings.items():
            (self.path / "raw" / name.replace("_", ".")).write_bytes(text)
        (self.path / "rules.toml").write_text(rules)
        self.capsys.readouterr()
        try:
            status, lines = main([str(self.path / name) for name in ("rules.toml", "raw", "in")]), []
        except Failure as failure:
            status, lines = failure.status, list(failure.lines)
        said = self.capsys.readouterr()
        return status, said.out.splitlines(), [*said.err.splitlines(), *lines]

    def captures(self) -> dict[str, bytes]:
        made = self.path / "in"
        return {str(path.relative_to(made)): path.read_bytes() for path in made.rglob("*") if path.is_file()}


@pytest.fixture
def folder(tmp_path: Path, capsys: pytest.CaptureFixture[str]) -> Folder:
    return Folder(tmp_path, capsys)


ONE = '[[source]]\nfile = "a.pcap"\nto = "port-1"\n'
TWO = '[[source]]\nfile = "b.pcap"\nto = "port-2"\n'


def test_one_recording(folder: Folder) -> None:
    """Compares the line, and the capture to the byte: in microseconds, big-endian, one frame cut, two frames
    exchanged."""
    first, second, third = frame(fill=1), frame(fill=2, size=64), frame(fill=3)
    records = [Record(AT + 3000, second, 99), Record(AT + 1000, first), Record(AT + 9000, third)]
    recording = captures.pcap(records, ">", 1000)
    assert folder.run(ONE, a_pcap=recording) == (0, [
        "port-1 frames 3 reordered 1 cut 1 fcs none "
        "first 2026-01-15T10:00:00.000001000Z last 2026-01-15T10:00:00.000009000Z"], [])
    assert folder.captures() == {"port-1.pcap": b"".join([
        bytes.fromhex("4d3cb2a1 0200 0400 00000000 00000000 00000400 01000000"),
        bytes.fromhex("a0ba6869 e8030000 3c000000 3c000000"), first,
        bytes.fromhex("a0ba6869 b80b0000 40000000 63000000"), second,
        bytes.fromhex("a0ba6869 28230000 3c000000 3c000000"), third])}


A = [Record(AT, frame(1, 9)), Record(AT + 1000, frame(2, 10, 0x40), 0, 1), Record(AT + 2000, frame(3, 10), 0, 1),
     Record(AT + 3000, frame(4, 77)), Record(AT + 4000, frame()[:11])]


@pytest.mark.parametrize("keys, taken", [
    ('to = "port-1"', {"port-1": [0, 1, 2, 3, 4]}),
    ('to = "port-1"\ninterface = "right"', {"port-1": [1, 2]}),
    ('to = "SW1/port-1"\ninterface = 0', {"SW1/port-1": [0, 3, 4]}),
    ('to = "port-1"\nnetwork = "A"', {"port-1": [0, 2, 3]}),
    ('to = "port-1"\nnetwork = "B"', {"port-1": [1]}),
    ('end_systems = { 9 = "port-1", 10 = "A/SW2/port-24", 11 = "port-2" }',
     {"port-1": [0], "A/SW2/port-24": [1, 2], "port-2": []}),
    ('end_systems = { 9 = "port-1", 10 = "port-1" }\nnetwork = "A"', {"port-1": [0, 2]}),
])
def test_which_frames(folder: Folder, keys: str, taken: dict[str, list[int]]) -> None:
    recording = captures.pcapng(A, ["left", "right"])
    status, lines, _ = folder.run(f'silent = ["port-7"]\n[[source]]\nfile = "a*.pcapng"\n{keys}\n', a_pcapng=recording)
    taken["port-7"] = []
    assert status == 0
    assert folder.captures() == {f"{port}.pcap": captures.pcap([A[index] for index in indices])
                                 for port, indices in taken.items()}
    assert {line.split()[0]: int(line.split()[2]) for line in lines} == {port: len(got) for port, got in taken.items()}


def test_frames_that_no_source_takes_are_said(folder: Folder) -> None:
    rules = '[[source]]\nfile = "a.pcap"\nend_systems = { 9 = "port-1" }\n'
    status, _, said = folder.run(rules, a_pcap=captures.pcap(A))
    assert (status, said) == (0, ["afdx-import: 4 of 5 frames are taken by no source, end systems none 10 77, a.pcap"])


def test_an_interface_that_is_not_there_is_said(folder: Folder) -> None:
    status, _, said = folder.run(ONE + 'interface = "up"\n', a_pcap=captures.pcapng(A, ["left", "right"]))
    assert (status, said) == (0, ["afdx-import: 5 of 5 frames are taken by no source, end systems none 9 10 77, "
                                  "a.pcap, interfaces 0 1",
                                  "afdx-import: warning: no interface 'up'; there are: 0 'left', 1 'right', a.pcap"])


MIRROR = '[[source]]\nfile = "a.pcap"\nend_systems = { 9 = "port-1", 10 = "port-2" }\n'


@pytest.mark.parametrize("keys, left", [
    ('network = "A"\ninterface = 0\n', [
        "1 of 5 frames are taken by no source, end systems 10 of network A{}",
        "1 of 5 frames are taken by no source, end systems 10 of network B{}"]),
    ('network = "B"\n', ["2 of 5 frames are taken by no source, end systems 9 10 of network A, a.pcap"]),
    ('network = "A"\ninterface = 1\n', [
        "1 of 5 frames are taken by no source, end systems 10 of network B{}",
        "1 of 5 frames are taken by no source, end systems 9 of network A, a.pcap, interface 0"])])
def test_frames_of_named_end_systems_that_no_source_takes(folder: Folder, keys: str, left: list[str]) -> None:
    """Checks that the network or the interface is named of end systems that the rules name."""
    status, _, said = folder.run(MIRROR + keys, a_pcap=captures.pcapng(A, ["left", "right"]))
    others = "2 of 5 frames are taken by no source, end systems none 77, a.pcap"
    assert (status, sorted(said)) == (0, sorted(
        f"afdx-import: {line.format(', a.pcap, interface 1')}" for line in [others, *left]))


@pytest.mark.parametrize("later, count, shown", [(1000, 20, True), (5_000_000, 20, True), (5_000_001, 20, False),
                                                 (1000, 9, False)])
def test_a_mirror_of_both_directions(folder: Folder, later: int, count: int, shown: bool) -> None:
    """Checks that frames with the bytes of one shortly before are warned of, if they are many."""
    came = [Record(AT + number * 10**7, frame(fill=number)) for number in range(20)]
    both = sorted([*came, *(replace(one, stamp=one.stamp + later) for one in came[:count])], key=lambda one: one.stamp)
    status, _, said = folder.run(ONE, a_pcap=captures.pcap(both))
    assert (status, said) == (0, [
        f"afdx-import: warning: {count} of {20 + count} frames looked at have the bytes of one at most 5 ms before: "
        "does the recording hold what leaves the switch too? take only what comes in, port-1"][:shown])


def test_a_link_without_sequence_numbers(folder: Folder) -> None:
    """Checks that it is not taken for a mirror of both directions, also beside others."""
    came = [Record(AT + number * 10**6, frame(number % 2, fill=number % 2 * number)) for number in range(100)]
    assert folder.run(ONE, a_pcap=captures.pcap(came))[::2] == (0, [])


def test_a_mirror_of_links_in_step(folder: Folder) -> None:
    """Checks links whose frames end with the same bytes for longer than 5 ms, as their sequence numbers are equal."""
    came = [Record(AT + number * 10**6, frame(number % 10, fill=number // 10)) for number in range(100)]
    both = sorted([*came, *(replace(one, stamp=one.stamp + 1000) for one in came)], key=lambda one: one.stamp)
    _, _, [said] = folder.run(ONE, a_pcap=captures.pcap(both))
    assert "100 of 200 frames looked at" in said


def tagged(data: bytes, *kinds: str) -> bytes:
    return data[:12] + b"".join(bytes.fromhex(kind) + b"\x20\x05" for kind in kinds) + data[12:]


PLAIN = [frame(size=60 + number, fill=number) for number in range(4)]
TAGGED = [tagged(PLAIN[0], "8100"), PLAIN[1], tagged(PLAIN[2], "88a8", "8100"), tagged(PLAIN[3], "88a8")]


@pytest.mark.parametrize("port", ['to = "port-1"', 'end_systems = { 1 = "port-1" }'])
@pytest.mark.parametrize("fcs", [False, True])
def test_tags(folder: Folder, port: str, fcs: bool) -> None:
    """Checks that tags are counted, and taken off if the rules say so; frames that were cut before its end stay."""
    def recording(frames: list[bytes], end: Callable[[bytes], bytes]) -> bytes:
        cut = [Record(AT + 9, TAGGED[0][:size], 1000 + 4 * fcs) for size in (13, 15)]
        return captures.pcap([*(Record(AT + at, end(data)) for at, data in enumerate(frames)), *cut])

    rules = f'[[source]]\nfile = "a.pcap"\n{port}\nfcs = {str(fcs).lower()}\n'
    text = recording(TAGGED, lambda data: checked(data) if fcs else data)
    status, _, said = folder.run(rules, a_pcap=text)
    assert (status, said) == (0, [
        "afdx-import: warning: 3 frames have a VLAN tag: tags = true in the rules takes it off, a.pcap"])
    fcs_less = captures.read(recording(TAGGED, bytes))[0][:4]
    assert captures.read(folder.captures()["port-1.pcap"])[0][:4] == fcs_less
    status, _, said = folder.run(rules + "tags = true\n", a_pcap=text)
    assert (status, said) == (0, ["afdx-import: tags of 3 frames taken off, a.pcap"])
    assert captures.read(folder.captures()["port-1.pcap"])[0] == captures.read(
        captures.pcap([*(Record(AT + at, data) for at, data in enumerate(PLAIN)),
                       *(Record(AT + 9, TAGGED[0][:size], 1000) for size in (13, 15))]))[0]


WITH = [Record(AT, checked(frame(fill=1))), Record(AT + 1, checked(frame(fill=2))[:40], 64),
        Record(AT + 2, checked(frame(fill=3))[:62], 64)]
WITHOUT = [Record(AT, frame(fill=1)), Record(AT + 1, frame(fill=2)[:40], 60), Record(AT + 2, frame(fill=3)[:60], 60)]
TAKEN_OFF = "afdx-import: 1 of 1 frames looked at end with their check sequence, taken off all, a.pcap, interface 0"


@pytest.mark.parametrize("fcs, got, word, said", [
    ("true", WITHOUT, "stripped", []), ("false", WITH, "none", []), ('"auto"', WITHOUT, "stripped", [TAKEN_OFF])])
def test_check_sequences(folder: Folder, fcs: str, got: list[Record], word: str, said: list[str]) -> None:
    status, lines, notes = folder.run(f"{ONE}fcs = {fcs}\n", a_pcap=captures.pcap(WITH))
    assert (status, notes) == (0, said)
    assert folder.captures() == {"port-1.pcap": captures.pcap(got)}
    assert f" fcs {word} " in lines[0]


def test_check_sequences_of_some_frames(folder: Folder) -> None:
    """Checks that of each interface what most of its first frames have is done to all, and said."""
    left = [Record(AT + number, frame(fill=number)) for number in range(5)]
    right = [Record(AT + 10 + number, data, interface=1)
             for number, data in enumerate([bytes(64), checked(frame(fill=1)), checked(frame(fill=2))])]
    status, lines, said = folder.run(ONE, a_pcap=captures.pcapng(left + right, ["left", "right"]))
    assert (status, said) == (0, ["afdx-import: warning: 2 of 3 frames looked at end with their check sequence, "
                                  "taken off all, a.pcap, interface 1"])
    assert " fcs stripped-of-3 " in lines[0]


@pytest.mark.parametrize("fcs, wrong, said", [
    ("true", 1, "warning: 1 of 3 frames looked at do not end with their check sequence, taken off all"),
    ("true", 3, "warning: 3 of 3 frames looked at do not end with their check sequence, taken off all"),
    ('"auto"', 1, "warning: 2 of 3 frames looked at end with their check sequence, taken off all")])
def test_wrong_check_sequences(folder: Folder, fcs: str, wrong: int, said: str) -> None:
    """Checks that wrong ones are said, also of later pieces, and of frames that are said to have them."""
    records = [Record(AT + number, checked(frame(fill=number))) for number in range(3 - wrong)]
    records += [Record(AT + 5 + number, frame(fill=number) + bytes(4)) for number in range(wrong)]
    with patch.object(Import.__init__, "__defaults__", (24 + 80,)):
        status, lines, notes = folder.run(f"{ONE}fcs = {fcs}\n", a_pcap=captures.pcap(records))
    assert (status, notes) == (0, [f"afdx-import: {said}, a.pcap, interface 0"])
    assert " fcs stripped " in lines[0]


def test_a_recording_that_is_taken_twice(folder: Folder) -> None:
    """Checks that a recording that is taken by its name and compressed is warned of; frames that differ have one stamp
    too, and equal ones another."""
    records = [Record(AT + stamp, frame(fill=fill)) for stamp, fill in ((0, 1), (0, 2), (0, 3), (7, 1), (8, 2))]
    records[1] = replace(records[1], frame=records[1].frame[:-8] + records[0].frame[-8:])
    text = captures.pcap(records)
    rules = ONE.replace("a.pcap", "a.pcap*")
    assert folder.run(rules, a_pcap=text)[2] == []
    for piece in (100, 4 * 1024 * 1024):
        with patch.object(Import.__init__, "__defaults__", (piece,)):
            status, lines, notes = folder.run(rules, a_pcap=text, a_pcap_gz=gzip.compress(text))
        assert (status, lines[0].split()[2], notes) == (0, "10", [
            "afdx-import: warning: 5 of 10 frames are there twice, with one stamp: is a recording taken twice?, "
            "port-1"])


def test_check_sequences_where_interfaces_come_later(folder: Folder) -> None:
    """Checks that what the first frames of an interface have is seen across the blocks of others."""
    good = [captures.packet(Record(AT + number, checked(frame(fill=number)))) for number in range(1, 9)]
    text = captures.section() + captures.interface() + captures.packet(Record(AT, bytes(64))) + captures.interface()
    status, _, said = folder.run(ONE, a_pcap=text + b"".join(good))
    assert (status, said) == (0, ["afdx-import: warning: 8 of 9 frames looked at end with their check sequence, "
                                  "taken off all, a.pcap, interface 0"])


@pytest.mark.parametrize("whole, word, said", [
    (0, "none", []),
    (30, "stripped-of-30", ["afdx-import: 30 of 30 frames looked at end with their check sequence, taken off all, "
                            "a.pcap, interface 0"])])
def test_cut_frames_before_any_whole_one(folder: Folder, whole: int, word: str, said: list[str]) -> None:
    """Checks that such frames keep their original lengths, with a warning."""
    cut = [Record(AT + number, checked(frame(fill=number))[:40], 64) for number in range(3)]
    later = [Record(AT + 10 + number, checked(frame(fill=number))) for number in range(whole)]
    with patch.object(Import.__init__, "__defaults__", (24 + 3 * 56,)), patch.object(CheckSequences, "LATER", 256):
        status, lines, notes = folder.run(ONE, a_pcap=captures.pcap(cut + later))
    assert (status, notes) == (0, ["afdx-import: warning: 3 cut frames came before any whole one that shows whether "
                                   "they had a check sequence, none taken off, a.pcap, interface 0", *said])
    assert f" cut 3 fcs {word} " in lines[0]


@pytest.mark.parametrize("keys, moved", [
    ("offset_ns = -37200000", [-37_200_000, -37_200_000 + SECOND]),
    ("drift_ppb = 50003", [0, SECOND + 50_003]),
    ("drift_ppb = -20000", [0, SECOND - 20_000]),
    (f"drift_ppb = 1000\ndrift_from_ns = {AT - 5 * SECOND}", [5_000, SECOND + 6_000]),
    (f"drift_ppb = -1001\ndrift_from_ns = {AT + SECOND // 2}", [500, SECOND - 501]),
    ("drift_ppb = -1000000\ndrift_from_ns = 0", [-AT // 1000, SECOND - AT // 1000 - 1_000_000]),
    ('stamps = "start"\nmbit = 100', [64 * 80, SECOND + 64 * 80]),
    ('stamps = "start"\nmbit = 10\nfcs = true', [60 * 800, SECOND + 60 * 800]),
    ('stamps = "start"\nmbit = 1000\noffset_ns = 7\ndrift_ppb = 1', [64 * 8 + 7, SECOND + 64 * 8 + 8]),
    ('stamps = "end"\nmbit = 1000', [0, SECOND])])
def test_stamps(folder: Folder, keys: str, moved: list[int]) -> None:
    assert folder.run(ONE + keys, a_pcap=captures.pcap([Record(AT, frame()), Record(AT + SECOND, frame())]))[0] == 0
    assert [one.stamp - AT for one in captures.read(folder.captures()["port-1.pcap"])[0]] == moved


def test_drift_counts_from_the_first_recording_of_a_source(folder: Folder) -> None:
    """Checks rotated files: the second one's clock has drifted on; the names are not in order of time."""
    rules = '[[source]]\nfile = "a*.pcap"\nto = "port-1"\ndrift_ppb = 1000\n'
    early, late = Record(AT, frame(1)), Record(AT + 2 * SECOND, frame(2))
    assert folder.run(rules, a9_pcap=captures.pcap([early]), a10_pcap=captures.pcap([late]))[0] == 0
    assert folder.captures() == {"port-1.pcap": captures.pcap([early, replace(late, stamp=late.stamp + 2000)])}


def test_dropped_frames_that_the_recording_counts(folder: Folder) -> None:
    """Checks that the last statistics of an interface count, and that old packets count what was dropped before each,
    if it is known."""
    def statistics(interface: int, dropped: int, code: int = 5) -> bytes:
        option = captures.option("<", code, struct.pack("<Q", dropped))
        return captures.block("<", 5, struct.pack("<III", interface, 0, 0) + option + bytes(4))

    def old(dropped: int) -> bytes:
        return captures.block("<", 2, struct.pack("<HHIIII", 0, dropped, AT >> 32, AT & 0xFFFFFFFF, 60, 60) + frame())

    begin = captures.section() + captures.interface() + captures.interface()
    short, past = b"", struct.pack("<IIIHH", 0, 0, 0, 5, 99)
    wrong = statistics(7, 9) + captures.block("<", 5, short) + captures.block("<", 5, past)
    for text, count in ((statistics(0, 3) + statistics(1, 8) + statistics(0, 5, 7) + wrong, 5), (statistics(0, 0), 0),
                        (old(0xFFFF) + old(0) + statistics(1, 8), 0), (old(0xFFFF) + old(2) + statistics(1, 1), 2)):
        status, _, said = folder.run(ONE + "interface = 0\n", a_pcap=begin + text)
        warnings = [line for line in said if "dropped" in line]
        assert (status, warnings) == (0, [
            f"afdx-import: warning: {count} frames were dropped when it was recorded, a.pcap, interface 0"][:count])


@pytest.mark.parametrize("order, options, count", [
    ("<", "0400 0800 0300000000000000", 3),
    (">", "0004 0008 0000000000000003", 3),
    ("<", "0400 0800 0000000001000000 0000 0000", 2**32),
    (">", "0001 0005 6162636465 000000 0002 0004 00000001 0004 0008 0000000000000009 0004 0008 0000000000000001", 9),
    ("<", "0400 0400 07000000 0400 0800 0700000000000000", 0),
    ("<", "0000 0000 0400 0800 0700000000000000", 0),
    ("<", "0400 0800 07000000", 0),
    ("<", "0100 ffff 0400 0800 0700000000000000", 0)])
@pytest.mark.parametrize("size", [60, 61, 63])
def test_dropped_frames_that_packets_count(folder: Folder, order: str, options: str, count: int, size: int) -> None:
    """Reads option 4 of a packet, of 64 bits, wherever it is among its options; of a repeated one the first. One of a
    wrong length, one after the end of options and one past the block's end are none."""
    two = [captures.packet(Record(AT, frame(size=size), interface=number), order, options=bytes.fromhex(options))
           for number in (0, 1)]
    none = captures.packet(Record(AT + 1, frame(size=size)), order)
    text = captures.section(order) + captures.interface(order) + captures.interface(order)
    status, _, said = folder.run(ONE + "interface = 0\n", a_pcap=text + none + b"".join(two) + none)
    assert (status, [line for line in said if "dropped" in line]) == (0, [
        f"afdx-import: warning: {count} frames were dropped when it was recorded, a.pcap, interface 0"][:count])


@pytest.mark.parametrize("in_all, before, count", [(5, (2, 1), 5), (2, (2, 1), 3), (0, (0, 0), 0)])
def test_dropped_frames_that_are_counted_in_two_ways(folder: Folder, in_all: int, before: tuple[int, int],
                                                     count: int) -> None:
    """Checks that the greater count is said, once, as statistics and packets tell of the same frames."""
    packets = [captures.packet(Record(AT + one, frame()), options=bytes.fromhex("04000800") + struct.pack("<Q", one))
               for one in before]
    statistics = captures.block("<", 5, bytes(12) + bytes.fromhex("05000800") + struct.pack("<Q", in_all))
    text = captures.section() + captures.interface() + b"".join(packets) + statistics
    status, _, said = folder.run(ONE, a_pcap=text)
    assert (status, [line for line in said if "dropped" in line]) == (0, [
        f"afdx-import: warning: {count} frames were dropped when it was recorded, a.pcap, interface 0"][:count])


def test_warnings(folder: Folder) -> None:
    mixed = [Record(AT, frame(network=0x20)), Record(AT, frame(network=0x40)), Record(AT, frame())]
    late = [Record(AT + SECOND + 1, frame())]
    status, lines, said = folder.run(ONE + TWO, a_pcap=captures.pcap(mixed)[:-1], b_pcap=captures.pcap(late))
    assert (status, said) == (0, [
        "afdx-import: warning: breaks off; what was whole before is used, a.pcap, record 3, offset 176",
        "afdx-import: warning: frames of both networks: 1 of network A and 1 of network B, port-1",
        "afdx-import: warning: the first frames lie 1.000 s apart, port-1 and port-2"])
    assert [line.split()[:3] for line in lines] == [["port-1", "frames", "2"], ["port-2", "frames", "1"]]
    assert folder.run(ONE + TWO, b_pcap=captures.pcap([Record(AT + SECOND, frame())]))[2] == said[:2]


@pytest.mark.parametrize("text", [
    b"", b"\xd4\xc3", captures.pcap([])[:23], gzip.compress(captures.pcap([]))[:5], captures.pcap([])])
def test_nothing_was_recorded(folder: Folder, text: bytes) -> None:
    status, lines, said = folder.run(ONE, a_pcap=text)
    assert (status, lines) == (0, ["port-1 frames 0 reordered 0 cut 0 fcs none first - last -"])
    assert folder.captures() == {"port-1.pcap": captures.pcap([])}
    assert said == ([] if text == captures.pcap([]) else [
        "afdx-import: warning: breaks off; what was whole before is used, a.pcap, header, offset 0"])


def test_late_by_the_window_and_later(folder: Folder) -> None:
    late = [Record(AT + 30_000_000, frame(1)), Record(AT + 29_000_000, frame(2)), Record(AT + 10_000_000, frame(3))]
    assert folder.run("window_ms = 20\n" + ONE, a_pcap=captures.pcap(late))[0] == 0
    assert folder.captures() == {"port-1.pcap": captures.pcap(late[::-1])}
    before = folder.captures()
    assert folder.run("window_ms = 19\n" + ONE, a_pcap=captures.pcap(late)) == (3, [], [
        "afdx-import: a frame of port-1 is more than 19 ms late: 2026-01-15T10:00:00.010000000Z comes after "
        "2026-01-15T10:00:00.030000000Z (a.pcap, record 1, offset 24), a.pcap, record 3, offset 176"])
    assert folder.captures() == before


@pytest.mark.parametrize("by, count", [(100_000_000, 0), (100_000_001, 1)])
def test_a_clock_that_was_set_back(folder: Folder, by: int, count: int) -> None:
    """Checks that frames that are late by more than 100 ms are warned of, with the place of the one that is most so."""
    stamps = [AT + 10**9, AT + 10**9 - 10**6, AT + 10**9 - by, AT + 10**9 - by + 10, AT + 2 * 10**9]
    records = [Record(stamp, frame(fill=fill)) for fill, stamp in enumerate(stamps)]
    assert folder.run(ONE, a_pcap=captures.pcap(records))[2] == count * [
        "afdx-import: warning: 3 of 5 frames are late, by up to 0.100 s: was the recorder's clock set back?, "
        "port-1 (a.pcap, record 3, offset 176)"]


def test_a_name_with_brackets(folder: Folder) -> None:
    """Checks that a file that has the name is taken, and not those that it fits as a pattern."""
    (folder.path / "raw").mkdir()
    (folder.path / "raw" / "a[1].pcap").write_bytes(captures.pcap(A))
    assert folder.run(ONE.replace("a.pcap", "a[1].pcap"), a1_pcap=captures.pcap([]))[0] == 0
    assert folder.captures() == {"port-1.pcap": captures.pcap(A)}
    (folder.path / "raw" / "a[1].pcap").unlink()
    assert folder.run(ONE.replace("a.pcap", "a[1].pcap"), a1_pcap=captures.pcap([]))[0] == 0
    assert folder.captures() == {"port-1.pcap": captures.pcap([])}


def test_a_pipe_is_no_recording(folder: Folder) -> None:
    """Checks that a pipe is not waited for, and is passed over if a pattern names a recording too."""
    raw = folder.path / "raw"
    raw.mkdir()
    os.mkfifo(raw / "b.pcap")
    assert folder.run(TWO) == (3, [], [f"afdx-import: no regular file b.pcap, source 1, {raw}"])
    assert folder.run(ONE.replace("a.pcap", "*.pcap"), a_pcap=captures.pcap(A))[0] == 0
    assert folder.captures() == {"port-1.pcap": captures.pcap(A)}


def test_each_faulty_recording_is_named_and_nothing_is_put(folder: Folder) -> None:
    broken = captures.pcap([Record(AT, frame())]) + captures.words(1, 10**9, 0, 0)
    rules = '[[source]]\nfile = "*.pcap"\nto = "SW1/port-1"\n'
    assert folder.run(rules, a_pcap=broken, b_pcap=b"no recording", c_pcap=captures.pcap(A)) == (
        3, [], ["afdx-import: a fraction of 1000000000 ns, a.pcap, record 2, offset 100",
                "afdx-import: neither pcap nor pcapng, b.pcap, header, offset 0"])
    assert sorted(path.name for path in folder.path.iterdir()) == ["raw", "rules.toml"]


@pytest.mark.parametrize("rules, status, said", [
    ("", 3, ["top: no source, {}/rules.toml"]),
    ("[[source]]", 3,
     ["source 1: file is missing, {}/rules.toml", "source 1: needs either to or end_systems, {}/rules.toml"]),
    ("window_ms = true\nwindow = 3\n[[source]]", 3,
     ["top: unknown key window, {}/rules.toml", "top: window_ms has to be a whole number, 0 to 60000, {}/rules.toml",
      "source 1: file is missing, {}/rules.toml", "source 1: needs either to or end_systems, {}/rules.toml"]),
    ('"a\\nb" = 1\n' + ONE, 3, ['top: unknown key "a\\nb", {}/rules.toml']),
    ("source = 3", 3, ["top: source has to be an array of tables, [[source]], {}/rules.toml"]),
    (ONE + "mbit = 100\n" + TWO + "drift_from_ns = 5\n", 3,
     ["source 1: mbit counts only with stamps of the frames' starts: stamps = \"start\" is missing, {}/rules.toml",
      "source 2: drift_ppb is missing, which counts from drift_from_ns, {}/rules.toml"]),
    (ONE + "drift_ppb = 1\ndrift_from_ns = -1\n", 3,
     ["source 1: drift_from_ns has to be a stamp, in ns since 1970, {}/rules.toml"]),
    (ONE + 'interface = -1\nfcs = 1\nstamps = "start"\n' + TWO + 'stamps = "end"\nmbit = 33\n', 3,
     ["source 1: interface has to be a name or a number, {}/rules.toml",
      'source 1: fcs has to be true, false or "auto", {}/rules.toml',
      "source 1: mbit is missing, by which stamps of the frames' starts are moved, {}/rules.toml",
      "source 2: mbit has to be 10, 100 or 1000, {}/rules.toml"]),
    ('[[source]]\nfile = "../a.pcap"\nto = "../port-1"\n', 3,
     ["source 1: file has to be the name of a file in RAW, or a pattern of names, {}/rules.toml",
      'source 1: to has to be a port from 1 to 24, as "port-1" or "SW1/port-1", {}/rules.toml']),
    ('[[source]]\nfile = "a.pcap"\nend_systems = { 9 = "port-1", 09 = "port-2" }\n', 3,
     ["source 1: end_systems has to be a table of end systems' numbers, 0 to 65535, each once, with a port from "
      '1 to 24, as "port-1" or "SW1/port-1", {}/rules.toml']),
    ('silent = ["port-0"]\n' + ONE, 3,
     ['top: silent has to be an array, of which each is a port from 1 to 24, as "port-1" or "SW1/port-1", '
      "{}/rules.toml"]),
    ('silent = ["port-1", "port-3", "SW1/port-1"]\n' + ONE + '[[source]]\nfile = "a.pcap"\n'
     'end_systems = { 1 = "port-3", 2 = "port-3", 3 = "port-2" }\n', 3,
     ["top: silent names port-1, which source 1 names too, {}/rules.toml",
      "top: silent names port-3, which source 2 names too, {}/rules.toml"]),
    ("source = [", 3, ["no TOML: Invalid value (at end of document), {}/rules.toml"]),
    (TWO, 3, ["no recording b.pcap, source 1, {}/raw"]),
    (ONE.replace("a.pcap", "."), 3, ["no regular file ., source 1, {}/raw"]),
    (ONE.replace("port-1", "port-25"), 3,
     ['source 1: to has to be a port from 1 to 24, as "port-1" or "SW1/port-1", {}/rules.toml']),
    (ONE + "drift_ppb = 100000000\n" + "offset_ns = 4294967295000000000\n", 3,
     ["a stamp that the rules move before 1970 or after 2106, a.pcap, record 1, offset 24"]),
])
def test_rules_that_cannot_be_followed(folder: Folder, rules: str, status: int, said: list[str]) -> None:
    lines = [f"afdx-import: {line.format(folder.path)}" for line in said]
    assert folder.run(rules, a_pcap=captures.pcap(A)) == (status, [], lines)
    assert folder.captures() == {}


def test_a_byte_order_mark_is_skipped(folder: Folder) -> None:
    assert folder.run("\ufeff" + ONE, a_pcap=captures.pcap(A))[0] == 0


def test_a_recording_is_not_replaced(folder: Folder) -> None:
    (folder.path / "in").symlink_to(folder.path / "raw")
    text = captures.pcap(A)
    assert folder.run('[[source]]\nfile = "*.pcap"\nto = "port-1"\n', **{"port-1_pcap": text}) == (
        5, [], [f"afdx-import: a recording would be replaced, {folder.path}/in/port-1.pcap"])
    assert folder.captures() == {"port-1.pcap": text}


def test_a_link_in_the_place_of_a_capture(folder: Folder) -> None:
    """Checks that the link is replaced, also if it leads to itself, and that what it led to stays."""
    (folder.path / "in").mkdir()
    (folder.path / "kept").write_text("text")
    for name in ("port-1.pcap", str(folder.path / "kept")):
        (folder.path / "in/port-1.pcap").unlink(missing_ok=True)
        (folder.path / "in/port-1.pcap").symlink_to(name)
        assert folder.run(ONE, a_pcap=captures.pcap(A))[0] == 0
        assert not (folder.path / "in/port-1.pcap").is_symlink()
    assert (folder.path / "kept").read_text() == "text"


def test_a_signal_while_captures_are_put(folder: Folder, monkeypatch: pytest.MonkeyPatch) -> None:
    """Checks that the signal waits until all captures are put: none is of another import than the others."""
    replace_file, handlers = os.replace, {number: signal.signal(number, signals.end) for number in signals.ENDING}

    def replace_slowly(old: str, new: Path) -> None:
        os.kill(os.getpid(), signal.SIGTERM)
        replace_file(old, new)

    monkeypatch.setattr(os, "replace", replace_slowly)
    monkeypatch.setattr(signals, "waiting", signals.Waiting())
    try:
        with pytest.raises(SystemExit) as ended:
            folder.run(ONE + TWO, a_pcap=captures.pcap(A), b_pcap=captures.pcap(A))
    finally:
        for number, handler in handlers.items():
            signal.signal(number, handler)
    assert ended.value.code == 128 + signal.SIGTERM
    assert folder.captures() == dict.fromkeys(("port-1.pcap", "port-2.pcap"), captures.pcap(A))


def test_warnings_that_nobody_takes(folder: Folder, monkeypatch: pytest.MonkeyPatch) -> None:
    with io.TextIOWrapper(open("/dev/full", "wb", buffering=0)) as full:
        monkeypatch.setattr(sys, "stderr", full)
        assert folder.run(ONE, a_pcap=captures.pcap(A)[:-1])[0] == 0


def test_link_types(folder: Folder) -> None:
    """Checks that of another link type only the interfaces that are asked for are refused; bits of a check sequence are
    none."""
    assert folder.run(ONE, a_pcap=captures.pcap(A, link_type=0x2400_0001))[0] == 0
    assert folder.run(ONE, a_pcap=captures.pcap(A, link_type=113)) == (
        3, [], ["afdx-import: link type 113, not Ethernet, a.pcap, record 1, offset 24"])
    mixed = captures.section() + captures.interface(name="usb", link_type=220) + captures.interface(name="port 1")
    mixed += b"".join(captures.packet(Record(AT, frame(), interface=number)) for number in (0, 1))
    assert folder.run(ONE, a_pcap=mixed)[0] == 3
    assert folder.run(ONE + 'interface = "port 1"\n', a_pcap=mixed)[0] == 0


@some.composite
def recordings(draw: some.DrawFn) -> list[Record]:
    """Draws a recording whose stamps fall by at most 20 ms."""
    records, newest = [], AT
    for _ in range(draw(some.integers(0, 30))):
        newest += draw(some.integers(0, 10**7))
        size = draw(some.sampled_from([11, 14, 60, 76, 300, 1514]))
        network = draw(some.sampled_from([0x20, 0x40]))
        data = frame(draw(some.integers(0, 2)), draw(some.integers(7, 12)), network, 1514)[:size]
        stamp, original = newest - draw(some.integers(0, 2 * 10**7)), draw(some.sampled_from([0, 1600]))
        records.append(Record(stamp, data, original, draw(some.integers(0, 1))))
    return records


@dataclass
class Asked:
    """Is a source of the rules, and the plain model of what it takes."""
    of: list[int]  # recordings
    interface: int | None
    network: str | None
    ports: dict[int, str] | str
    offset: int

    def rule(self) -> str:
        names = {(0,): "0.pcapng", (1,): "1.pcapng", (0, 1): "*.pcapng"}
        ports = f'to = "{self.ports}"'
        if isinstance(self.ports, dict):
            pairs = ", ".join(f'{number} = "{port}"' for number, port in self.ports.items())
            ports = f"end_systems = {{ {pairs} }}"
        return "\n".join(["[[source]]", f'file = "{names[tuple(self.of)]}"', f"offset_ns = {self.offset}", ports,
                          "" if self.interface is None else f"interface = {self.interface}",
                          "" if self.network is None else f'network = "{self.network}"', ""])

    def port(self, one: Record) -> str | None:
        """Returns the port to which a frame comes; None if it is not asked for."""
        if self.interface not in (None, one.interface):
            return None
        if self.network and one.frame[11:12] != {"A": b"\x20", "B": b"\x40"}[self.network]:
            return None
        if isinstance(self.ports, str):
            return self.ports
        return self.ports.get(one.frame[9] << 8 | one.frame[10]) if len(one.frame) >= 12 else None


PORTS = some.sampled_from(["port-1", "port-2", "SW1/port-1"])
ASKED = some.builds(Asked, some.sampled_from([[0], [1], [0, 1]]), some.sampled_from([None, 0, 1]),
                    some.sampled_from([None, "A", "B"]),
                    PORTS | some.dictionaries(some.integers(7, 12), PORTS, min_size=1), some.integers(-10**8, 10**8))


@given(some.lists(recordings(), min_size=2, max_size=2), some.lists(ASKED, min_size=1, max_size=4),
       some.sampled_from([0, 2000, 2**24]), some.sampled_from([100, 2000, 2**20]))
def test_random_recordings(tmp_path_factory: pytest.TempPathFactory, recorded: list[list[Record]], asked: list[Asked],
                           most: int, piece: int) -> None:
    """Checks that each port gets the frames that a plain model gives it, in order of their stamps. If few may wait, a
    late one may be refused, but none is lost or out of order."""
    raw = tmp_path_factory.getbasetemp()
    wanted: dict[str, list[Record]] = {}
    for number, records in enumerate(recorded):
        (raw / f"{number}.pcapng").write_bytes(captures.pcapng(records, ["left", "right"]))
        for one, source in ((one, source) for source in asked if number in source.of for one in records):
            if port := source.port(one):
                moved = Record(one.stamp + source.offset, one.frame, one.length)
                wanted.setdefault(port, []).append(moved)
    rules = rules_of("".join(source.rule() for source in asked).encode())
    got: dict[str, bytearray] = {port: bytearray() for port in rules.ports}
    found = [sorted(raw.glob(source.file)) for source in rules.sources]
    with patch.multiple(ordering, MOST_WAITING=most, OF_EACH=0, LEAST_WRITTEN=0):
        done = Import(rules, raw, found, lambda port, text: got[port].extend(text), piece)
        done.run(lambda _: None)
    assert not done.faults or most < 2**24 and all("late" in str(fault) for fault in done.faults)
    for port, text in got.items():
        records, _ = captures.read(captures.pcap([]) + text)
        assert [one.stamp for one in records] == sorted(one.stamp for one in records)
        assert done.faults or sorted(records, key=repr) == sorted(wanted.get(port, []), key=repr)


SAMPLE = [Record(AT + number * 10**6, frame(number, 9 + number % 2, size=60 + number), interface=number % 2)
          for number in range(6)]
PCAPNG = captures.pcapng(SAMPLE, ["left", "right"])
SAMPLES = [captures.pcap(SAMPLE), captures.pcap(SAMPLE, ">", 1000), PCAPNG, captures.pcapng(SAMPLE, ["", "x"], ">")]
CHANGES = some.lists(some.tuples(some.integers(0, 10**6), some.binary(min_size=1, max_size=4)), max_size=3)
MUTATED = '[[source]]\nfile = "m.pcap"\nend_systems = { 9 = "port-1", 10 = "port-2" }\nfcs = false\n'


def imported_plainly(text: bytes) -> dict[str, bytes] | None:
    """Returns the captures of a plain model for the rules of mutated recordings; None if they have to be refused."""
    try:
        records, _ = captures.read(text)
    except Faulty:
        return None
    if any(one.link_type != captures.ETHERNET for one in records):
        return None
    ports: dict[str, list[Record]] = {"port-1.pcap": [], "port-2.pcap": []}
    for one in records:
        number = int.from_bytes(one.frame[9:11], "big") if len(one.frame) >= 12 else 0
        if number in (9, 10):
            ports[f"port-{number - 8}.pcap"].append(one)
    for got in ports.values():
        stamps = [one.stamp for one in got]
        if any(max(stamps[:index]) - stamp > SECOND for index, stamp in enumerate(stamps) if index):
            return None
    return {port: captures.pcap(sorted(got, key=lambda one: one.stamp)) for port, got in ports.items()}


@given(text=some.sampled_from(SAMPLES), changes=CHANGES, cut=some.integers(0, 10**6))
def test_mutated_recordings(folder: Folder, text: bytes, changes: list[tuple[int, bytes]], cut: int) -> None:
    """Checks that a mutated recording is refused and nothing is put, or that what is put is what a plain model makes of
    it."""
    shutil.rmtree(folder.path / "in", ignore_errors=True)
    changed = bytearray(text)
    for at, by in changes:
        changed[at % len(text):at % len(text) + len(by)] = by
    changed = changed[:len(text) - (cut % len(text) if cut % 2 else 0)]
    wanted = imported_plainly(bytes(changed))
    status, _, said = folder.run(MUTATED, m_pcap=bytes(changed))
    assert (status, folder.captures()) == ((3, {}) if wanted is None else (0, wanted))
    assert all(line.startswith("afdx-import: ") for line in said)


@given(at=some.integers(0, 10**6), by=some.binary(min_size=1, max_size=2))
def test_mutated_compressed_recordings(folder: Folder, at: int, by: bytes) -> None:
    """Checks that the check of gzip finds what was changed: it is refused, or the bytes are those of the recording."""
    shutil.rmtree(folder.path / "in", ignore_errors=True)
    changed = bytearray(gzip.compress(PCAPNG, mtime=0))
    changed[at % len(changed):at % len(changed) + len(by)] = by
    status, _, _ = folder.run(MUTATED, m_pcap=bytes(changed))
    assert (status, folder.captures()) in [(3, {}), (0, imported_plainly(PCAPNG))]


def test_late_by_less_than_the_window_where_too_many_wait(folder: Folder) -> None:
    """Checks that nothing that was written is passed by a frame before it: it is refused, with both records."""
    records = [Record(AT + number, frame(fill=number)) for number in range(1, 40)] + [Record(AT, frame())]
    with (patch.multiple(ordering, MOST_WAITING=1000, OF_EACH=0),
          patch.object(Import.__init__, "__defaults__", (1000,))):
        assert folder.run(ONE, a_pcap=captures.pcap(records)) == (3, [], [
            "afdx-import: a frame of port-1 is late, and later ones no longer wait: 2026-01-15T10:00:00.000000000Z "
            "comes after 2026-01-15T10:00:00.000000031Z (a.pcap, record 31, offset 2304), "
            "a.pcap, record 40, offset 2988"])
    assert folder.captures() == {}


def test_many_recordings_of_a_port_where_too_many_wait(folder: Folder) -> None:
    """Checks that what waits for recordings that are behind passes none of their frames, however much it is, and that
    frames may still be late by a part of the window."""
    records = [Record(AT + number * 10**6 - number % 10 // 9 * 6_500_000, frame(number)) for number in range(400)]
    texts = {f"a{part}_pcap": captures.pcap(records[part::4]) for part in range(4)}
    with (patch.multiple(ordering, MOST_WAITING=2000, OF_EACH=1000),
          patch.object(Import.__init__, "__defaults__", (1000,))):
        status, lines, said = folder.run(ONE.replace("a.pcap", "a*.pcap"), **texts)
    assert (status, lines[0].split()[:5], said) == (0, ["port-1", "frames", "400", "reordered", "40"], [])
    assert folder.captures() == {"port-1.pcap": captures.pcap(sorted(records, key=lambda one: one.stamp))}


@pytest.mark.parametrize("ahead", [3600 * SECOND, -3600 * SECOND])
@pytest.mark.parametrize("begin", [0, 1, 3])
@pytest.mark.parametrize("is_asked", [False, True])
def test_interfaces_with_clocks_that_are_apart(folder: Folder, ahead: int, begin: int, is_asked: bool) -> None:
    """Checks recordings that follow one another, of two lines whose clocks differ by an hour: each port is in order."""
    sent = [Record(AT + number * 10**6, frame(number), interface=(number // 3 + begin) % 2) for number in range(900)]
    read = [replace(one, stamp=one.stamp + one.interface * ahead) for one in sent]
    texts = {f"a{part}_pcapng": captures.pcapng(read[part * 301:part * 301 + 301], ["left", "right"])
             for part in range(3)}
    rule = '[[source]]\nfile = "a*.pcapng"\ninterface = {}\nto = "port-{}"\noffset_ns = {}\n'
    rules = rule.format(0, 1, 0) + (rule.format(1, 2, -ahead) if is_asked else "")
    with (patch.multiple(ordering, LEAST_WRITTEN=0, MOST_WAITING=1000, OF_EACH=0),
          patch.object(Import.__init__, "__defaults__", (1000,))):
        assert folder.run(rules, **texts)[0] == 0
    assert folder.captures() == {
        f"port-{number + 1}.pcap": captures.pcap([one for one in sent if one.interface == number])
        for number in range(1 + is_asked)}


def test_what_waits_stays_little(tmp_path: Path) -> None:
    """Checks that frames that are few do not wait in ever more parts, and that recordings share the bytes in which they
    are read at one time."""
    records = [Record(AT + number * 10**8, frame(end_system=1 + (number % 10 == 0))) for number in range(2000)]
    paths = [tmp_path / f"{number}.pcap" for number in range(4)]
    for path in paths:
        path.write_bytes(captures.pcap(records))
    rules = rules_of(b'[[source]]\nfile = "*.pcap"\nend_systems = { 1 = "port-1", 2 = "port-2" }\n')
    waiting: list[int] = []
    pieces: list[list[int]] = []

    def look(_: int) -> None:
        waiting.append(len(done.ports["port-2"].ordering.waiting))
        pieces.append([one.recording.piece for one in done.readings.values()])

    with patch.multiple(ordering, MANY=8), patch.multiple(running, ALL_PIECES=2000, LEAST_PIECE=100):
        done = Import(rules, tmp_path, [paths], Mock(), 1000)
        done.run(look)
    assert max(waiting) <= 16 and pieces[100] == [500] * 4
    assert [port.frames for port in done.ports.values()] == [7200, 800]


def test_a_folder_in_the_place_of_a_capture(folder: Folder, monkeypatch: pytest.MonkeyPatch) -> None:
    """Checks that it is what is told, also if a new file cannot be removed."""
    (folder.path / "in" / "port-2.pcap").mkdir(parents=True)
    status, lines, said = folder.run(ONE + TWO, a_pcap=captures.pcap(A), b_pcap=captures.pcap(A))
    assert (status, lines, said) == (5, [], [f"afdx-import: cannot write {folder.path}/in/port-2.pcap: Is a directory"])
    assert folder.captures() == {}
    monkeypatch.setattr(Path, "unlink", Mock(side_effect=PermissionError))
    assert folder.run(ONE + TWO, a_pcap=captures.pcap(A), b_pcap=captures.pcap(A)) == (5, [], said)
