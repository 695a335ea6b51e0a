"""What tcpdump and Wireshark's tools write is read as these tools themselves read it."""
import random
import subprocess
from pathlib import Path

import pytest

import captures
from captures import Record
from tests import readback

SECOND = captures.SECOND


def recorded() -> list[Record]:
    chance = random.Random(3)
    sizes = [chance.choice([60, 61, 300, 1514]) for _ in range(200)]
    seconds = [1_768_471_200 + number // 50 for number in range(200)]
    return [Record(second * SECOND + chance.randrange(SECOND // 2), chance.randbytes(size), size)
            for second, size in zip(seconds, sizes)]


def run(command: str, folder: Path) -> None:
    subprocess.run(["bash", "-euo", "pipefail", "-c", command], cwd=folder, check=True, capture_output=True)


def read(path: Path) -> list[Record]:
    records, recording = readback.read(path)
    assert recording.broken is None
    return records


def shown(path: Path) -> list[tuple[str, ...]]:
    """Returns what tshark says of each frame."""
    fields = ["frame.time_epoch", "frame.cap_len", "frame.len", "frame.interface_id"]
    arguments = ["tshark", "-r", str(path), "-T", "fields", *(word for field in fields for word in ("-e", field))]
    lines = subprocess.run(arguments, check=True, capture_output=True, text=True).stdout.splitlines()
    return [tuple(line.split("\t")) for line in lines]


def as_shown(one: Record) -> tuple[str, ...]:
    return f"{one.stamp // SECOND}.{one.stamp % SECOND:09}", str(len(one.frame)), str(one.length), str(one.interface)


@pytest.mark.parametrize("command, unit", [
    ("tcpdump -r raw.pcap -w made", 1000),
    ("tcpdump --time-stamp-precision=nano -r raw.pcap -w made", 1),
    ("tcpdump --time-stamp-precision=nano -r raw.pcap -w - | gzip >made", 1),
    ("editcap -F pcap raw.pcap made", 1000),
    ("editcap -F nsecpcap raw.pcap - | xz >made", 1),
    ("editcap -F pcapng raw.pcap made", 1),
    ("editcap -F pcapng -a 1:note -a 7:'a longer note' raw.pcap - | zstd -q >made", 1),
    ("tshark -r raw.pcap -w made", 1),
    ("dumpcap -q -i - -w made <raw.pcap", 1),
    ("dumpcap -q -P -i - -w made <raw.pcap", 1),
    ("tshark -r raw.pcap -x | text2pcap -q - made", 0),
])
def test_one_interface(tmp_path: Path, command: str, unit: int) -> None:
    """Compares frames and stamps. The unit is that of the stamps, in ns; 0 where the tool makes its own."""
    records = recorded()
    (tmp_path / "raw.pcap").write_bytes(captures.pcap(records))
    run(command, tmp_path)
    found = read(tmp_path / "made")
    assert [one.frame for one in found] == [one.frame for one in records]
    assert not unit or [one.stamp for one in found] == [one.stamp // unit * unit for one in records]
    if "zstd" not in command and "xz" not in command:  # which tshark does not unpack
        assert [as_shown(one)[:3] for one in found] == [told[:3] for told in shown(tmp_path / "made")]


def test_several_interfaces_and_cut_frames(tmp_path: Path) -> None:
    for number in range(3):
        (tmp_path / f"{number}.pcap").write_bytes(captures.pcap(recorded()[number::3]))
    run("mergecap -F pcapng -I none -w all.pcapng 0.pcap 1.pcap 2.pcap; editcap -s 50 all.pcapng made", tmp_path)
    found = read(tmp_path / "made")
    assert {one.interface for one in found} == {0, 1, 2}
    assert [as_shown(one) for one in found] == shown(tmp_path / "made")
