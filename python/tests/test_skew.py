"""How far apart two networks deliver the same frames."""
import os
from functools import partial
from pathlib import Path

import pytest

import captures
from afdx.failure import Failure
from afdx.recordings.reading import PIECE, Recording
from afdx.skew.command import main
from captures import Record

AT = 1_768_471_200 * captures.SECOND
MS = 10**6


def frame(link: int, count: int, network: int) -> bytes:
    return captures.frame(link, 64, end_system=1, network=network, fill=bytes([count]))


def put(folder: Path, name: str, network: int, sent: list[tuple[int, int, int]]) -> None:
    """Writes a capture of (stamp in us, link, count)."""
    (folder / name).parent.mkdir(parents=True, exist_ok=True)
    records = [Record(AT + stamp * 1000, frame(link, count, network)) for stamp, link, count in sent]
    (folder / name).write_bytes(captures.pcap(records))


def run(folder: Path, *more: str) -> int:
    return main([str(folder / "a"), str(folder / "b"), *more])


def test_pairs_and_frames_of_one_network(tmp_path: Path, capsys: pytest.CaptureFixture[str]) -> None:
    """Counts where link 1 lacks three frames on B, two of them in a row, and one on A; of link 2 the same bytes come
    again."""
    put(tmp_path / "a", "SW1/port-2.pcap", 0x20,
        [(0, 1, 1), (5, 2, 9), (1000, 1, 2), (2000, 1, 3), (3000, 1, 4), (4000, 1, 5), (50_005, 2, 9), (60_000, 1, 7)])
    put(tmp_path / "b", "SW1/port-2.pcap", 0x40,
        [(15, 2, 9), (30, 1, 1), (2990, 1, 4), (5000, 1, 6), (50_000, 2, 9)])
    assert run(tmp_path) == 0
    assert capsys.readouterr() == (
        "SW1/port-2 link 1 pairs 2 least -10000 greatest 30000 only-a 4 run-a 2 only-b 1 run-b 1\n"
        "SW1/port-2 link 2 pairs 2 least -5000 greatest 10000 only-a 0 run-a 0 only-b 0 run-b 0\n", "")


def test_each_frame_that_is_odd(tmp_path: Path, capsys: pytest.CaptureFixture[str]) -> None:
    put(tmp_path / "a", "port-1.pcap", 0x20, [(0, 1, 1), (10, 2, 2), (500, 1, 3), (900, 1, 5), (1300, 1, 6)])
    put(tmp_path / "b", "port-1.pcap", 0x40, [(400, 1, 1), (800, 1, 4), (899, 1, 6), (901, 1, 3), (1301, 1, 5)])
    assert run(tmp_path, "--apart-us", "400") == 0
    assert capsys.readouterr().out.splitlines()[2:] == [
        "port-1 link 2 only-a at 2026-01-15T10:00:00.000010000Z",
        "port-1 link 1 apart 401000 at 2026-01-15T10:00:00.000500000Z",
        "port-1 link 1 only-b at 2026-01-15T10:00:00.000800000Z",
        "port-1 link 1 apart 401000 at 2026-01-15T10:00:00.000900000Z",
        "port-1 link 1 apart -401000 at 2026-01-15T10:00:00.001300000Z"]


def test_how_far_copies_may_be_apart(tmp_path: Path, capsys: pytest.CaptureFixture[str]) -> None:
    put(tmp_path / "a", "port-1.pcap", 0x20, [(0, 1, 1)])
    put(tmp_path / "b", "port-1.pcap", 0x40, [(20_000, 1, 1)])
    assert run(tmp_path) == 0
    assert run(tmp_path, "--within-ms", "19") == 0
    assert capsys.readouterr().out.splitlines() == [
        "port-1 link 1 pairs 1 least 20000000 greatest 20000000 only-a 0 run-a 0 only-b 0 run-b 0",
        "port-1 link 1 pairs 0 least - greatest - only-a 1 run-a 1 only-b 1 run-b 1"]


def test_a_lost_one_of_frames_of_the_same_bytes(tmp_path: Path, capsys: pytest.CaptureFixture[str]) -> None:
    """Checks that those after it are paired with the next, unless that is too far apart."""
    put(tmp_path / "a", "port-1.pcap", 0x20, [(4000 * number, 1, 1) for number in range(5)])
    put(tmp_path / "b", "port-1.pcap", 0x40, [(4000 * number + 25, 1, 1) for number in (0, 2, 3, 4)])
    assert run(tmp_path) == 0
    assert run(tmp_path, "--within-ms", "3") == 0
    assert capsys.readouterr().out.splitlines() == [
        "port-1 link 1 pairs 4 least 25000 greatest 4025000 only-a 1 run-a 1 only-b 0 run-b 0",
        "port-1 link 1 pairs 4 least 25000 greatest 25000 only-a 1 run-a 1 only-b 0 run-b 0"]


def test_folders_to_which_links_lead(tmp_path: Path, capsys: pytest.CaptureFixture[str]) -> None:
    for network, folder in ((0x20, "a"), (0x40, "b")):
        put(tmp_path / "runs", f"{folder}/port-1.pcap", network, [(0, 1, 1)])
        (tmp_path / folder).mkdir()
        (tmp_path / folder / "SW1").symlink_to(tmp_path / "runs" / folder)
    assert run(tmp_path) == 0
    assert capsys.readouterr().out == "SW1/port-1 link 1 pairs 1 least 0 greatest 0 only-a 0 run-a 0 only-b 0 run-b 0\n"


def test_a_port_of_one_network(tmp_path: Path, capsys: pytest.CaptureFixture[str]) -> None:
    put(tmp_path / "a", "port-10.pcap", 0x20, [(0, 1, 1)])
    put(tmp_path / "a", "port-9.pcap", 0x20, [])
    put(tmp_path / "b", "port-9.pcap", 0x40, [(0, 2, 1), (1, 2, 2)])
    assert run(tmp_path) == 0
    assert capsys.readouterr() == (
        "port-9 link 2 pairs 0 least - greatest - only-a 0 run-a 0 only-b 2 run-b 2\n"
        "port-10 link 1 pairs 0 least - greatest - only-a 1 run-a 1 only-b 0 run-b 0\n",
        f"afdx-skew: warning: no capture port-10.pcap, {tmp_path}/b\n")


def test_faults(tmp_path: Path, capsys: pytest.CaptureFixture[str]) -> None:
    put(tmp_path / "a", "port-1.pcap", 0x20, [(0, 1, 1)])
    with pytest.raises(Failure) as caught:
        run(tmp_path)
    assert (caught.value.status, caught.value.lines) == (3, (f"afdx-skew: no folder {tmp_path}/b",))
    (tmp_path / "b").mkdir()
    (tmp_path / "b" / "port-1.pcap").write_bytes(b"no capture")
    with pytest.raises(Failure) as caught:
        run(tmp_path)
    assert caught.value.lines == (f"afdx-skew: neither pcap nor pcapng, {tmp_path}/b/port-1.pcap, header, offset 0",)
    (tmp_path / "b" / "port-1.pcap").unlink()
    (tmp_path / "b" / "port-1.pcap").symlink_to(tmp_path / "gone")
    with pytest.raises(Failure) as caught:
        run(tmp_path)
    assert (caught.value.status, caught.value.lines) == (
        5, (f"afdx-skew: cannot read {tmp_path}/b/port-1.pcap: No such file or directory",))
    (tmp_path / "b" / "port-1.pcap").unlink()
    os.mkfifo(tmp_path / "b" / "port-1.pcap")
    with pytest.raises(Failure) as caught:
        run(tmp_path)
    assert caught.value.lines == (f"afdx-skew: no regular file, {tmp_path}/b/port-1.pcap, header, offset 0",)
    assert capsys.readouterr().out == ""


@pytest.mark.parametrize("piece", [PIECE, 100])
def test_stamps_that_fall(tmp_path: Path, monkeypatch: pytest.MonkeyPatch, piece: int) -> None:
    """Checks that such stamps are refused. The pairs would be wrong: a copy that waits would be given up too soon. In
    pieces of 100 bytes each has a record of its own."""
    put(tmp_path / "a", "port-1.pcap", 0x20, [(0, 1, 1), (50_000, 1, 2)])
    put(tmp_path / "b", "port-1.pcap", 0x40, [(50_000, 1, 2), (50_000, 1, 3), (0, 1, 1)])
    monkeypatch.setattr("afdx.skew.command.Recording", partial(Recording, piece=piece))
    with pytest.raises(Failure) as caught:
        run(tmp_path)
    what = "a stamp below that of the record before (afdx-import sorts)"
    place = f"{tmp_path}/b/port-1.pcap, record 3, offset 176"
    assert (caught.value.status, caught.value.lines) == (3, (f"afdx-skew: {what}, {place}",))
