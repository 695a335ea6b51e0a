"""The offset and the drift between two recorders."""
import os
import random
import tracemalloc
from collections.abc import Callable
from pathlib import Path

import numpy as np
import pytest

import captures
from afdx import toml
from afdx.failure import Failure
from afdx.importing.alignment import MOST_KEPT, Sampler, Sightings, Unaligned, aligned, sightings
from afdx.importing.command import main
from captures import Record

SECOND = captures.SECOND
AT = 1_768_471_200 * SECOND


def frame(link: int, count: int, size: int = 60) -> bytes:
    """Returns a frame whose only change is its sequence number, 1 to 255, as an AFDX sender has it."""
    return captures.frame(link, size + 3, end_system=1, network=0x20) + bytes([count % 255 + 1])


def traffic(seconds: int, chance: random.Random) -> list[Record]:
    """Returns the frames of ten links, of which each may send every 2 to 16 ms and mostly does, so that the same bytes
    come again."""
    sent = []
    for link in range(10):
        gap, count = (2, 4, 8, 16)[link % 4] * 10**6, 0
        for begin in range(chance.randrange(gap), seconds * SECOND, gap):
            if chance.random() < 0.9:
                sent.append(Record(AT + begin + chance.randrange(5000), frame(link, count)))
                count += 1
    return sorted(sent, key=lambda one: one.stamp)


def other(records: list[Record], offset: int, ppb: int, late: Callable[[], int]) -> list[Record]:
    """Returns what another recorder has of the same frames, if by its clock they come so much later."""
    return [Record(one.stamp + offset + (one.stamp - AT) * ppb // SECOND + late(), one.frame) for one in records]


@pytest.mark.parametrize("seconds, offset, ppb, noise", [
    (3, 37_200_000, 20_000, 0), (3, -1_500_000, 0, 1000), (30, 5 * SECOND, -50_000, 20_000),
    (30, -86_400 * SECOND, 99_000, 100)])
def test_offset_and_drift_are_found(tmp_path: Path, seconds: int, offset: int, ppb: int, noise: int) -> None:
    """Checks offset and drift where every third frame is missing at the second recorder, every fifth at the first. A
    median of hundreds of frames is far better than one of them: to a tenth of the noise."""
    chance = random.Random(seconds + ppb)
    sent = traffic(seconds, chance)
    (tmp_path / "a").write_bytes(captures.pcap([one for number, one in enumerate(sent) if number % 5]))
    both = [one for number, one in enumerate(sent) if number % 3]
    seen = other(both, offset, ppb, lambda: chance.randrange(noise + 1))
    (tmp_path / "b").write_bytes(captures.pcap(sorted(seen, key=lambda one: one.stamp)))
    found = aligned(sightings(tmp_path / "a"), sightings(tmp_path / "b"))
    for one in seen[0], seen[-1]:
        true = AT + (one.stamp - offset - AT) * SECOND // (SECOND + ppb)
        moved = one.stamp + found.offset_ns + (one.stamp - seen[0].stamp) * found.drift_ppb // SECOND
        assert abs(moved - (true - noise // 2)) <= 20 + noise // 10
    assert found.pairs > 0.99 * sum(1 for number in range(len(sent)) if number % 3 and number % 5)
    assert abs(-found.drift_ppb - ppb) <= 3 + noise // 10 // seconds + ppb * ppb // SECOND


def test_one_mark(tmp_path: Path, capsys: pytest.CaptureFixture[str]) -> None:
    """Checks that a single frame in both tells the offset alone."""
    (tmp_path / "a").write_bytes(captures.pcap([Record(AT, frame(1, 1)), Record(AT + 5, frame(2, 1))]))
    (tmp_path / "b").write_bytes(captures.pcapng([Record(AT + 1_500_000, frame(1, 1))], ["x"]))
    assert main(["--align", str(tmp_path / "a"), str(tmp_path / "b")]) == 0
    assert capsys.readouterr().out.splitlines() == [
        f"# {tmp_path}/b by the clock of {tmp_path}/a: 1 frames in both, over 0.000 s",
        "# beside this they differ by 0 to 0 ns, half of them by 0 to 0 ns", "# too short to tell a drift",
        "offset_ns = -1500000", "drift_ppb = 0"]


def test_where_the_drift_counts_from(tmp_path: Path, capsys: pytest.CaptureFixture[str]) -> None:
    """Checks that the stamp from which it counts is said where there is a drift, so that the rules hold for B wherever
    it stands among the source's recordings: B's second mark comes to the first recording's stamp, beside an earlier
    recording of B's source too."""
    marks = [Record(AT + number * SECOND, frame(number, 1)) for number in (1, 2)]
    (tmp_path / "a").write_bytes(captures.pcap(marks))
    (tmp_path / "b").write_bytes(captures.pcap([marks[0], Record(marks[1].stamp + 20_000, marks[1].frame)]))
    assert main(["--align", str(tmp_path / "a"), str(tmp_path / "b")]) == 0
    found = capsys.readouterr().out
    assert found.splitlines()[2:] == ["offset_ns = 0", "drift_ppb = -20000", f"drift_from_ns = {marks[0].stamp}"]
    (tmp_path / "b-earlier").write_bytes(captures.pcap([Record(AT - 3600 * SECOND, frame(3, 1))]))
    (tmp_path / "rules.toml").write_text(f'[[source]]\nfile = "b*"\nto = "port-1"\n{found}')
    assert main([str(tmp_path / "rules.toml"), str(tmp_path), str(tmp_path / "in")]) == 0
    moved = captures.read((tmp_path / "in" / "port-1.pcap").read_bytes())[0]
    assert [one.stamp for one in moved] == [AT - 3600 * SECOND + 3601 * 20_000, marks[0].stamp, marks[1].stamp - 1]


@pytest.mark.parametrize("a, b, unit, said", [
    ([400, 20_700], [0, 20_000], 1000, ["# too short to tell a drift", "offset_ns = 550", "drift_ppb = 0"]),
    ([0, SECOND], [0, SECOND + 9000], 1,
     ["# too short to tell a drift of less than 22628 ppb", "offset_ns = -4500", "drift_ppb = 0"]),
    ([0, 10, 20, 500, SECOND], [0, 10, 20, 500, SECOND + 90_000], 1,
     ["offset_ns = 0", "drift_ppb = -89992", f"drift_from_ns = {AT}"])])
def test_a_drift_is_told_beside_the_noise_alone(tmp_path: Path, capsys: pytest.CaptureFixture[str], a: list[int],
                                                b: list[int], unit: int, said: list[str]) -> None:
    """Checks that few frames, or frames that are close together, tell no drift that their noise may be."""
    for name, stamps, its in ("a", a, 1), ("b", b, unit):
        records = [Record(AT + stamp, frame(number, 1)) for number, stamp in enumerate(stamps)]
        (tmp_path / name).write_bytes(captures.pcap(records, unit=its))
    assert main(["--align", str(tmp_path / "a"), str(tmp_path / "b")]) == 0
    assert capsys.readouterr().out.splitlines()[2:] == said


def test_a_clock_of_milliseconds_tells_less(tmp_path: Path) -> None:
    """Checks that the noise is that of the coarser clock: 1 ms in 10 s may be none of the drift."""
    texts = [captures.packet(Record(0, frame(number, 1)), units=AT // 10**6 + stamp)
             for number, stamp in enumerate((0, 10_001))]
    (tmp_path / "a").write_bytes(captures.pcap([Record(AT + number * 10**10, frame(number, 1)) for number in (0, 1)]))
    (tmp_path / "b").write_bytes(b"".join([captures.section(), captures.interface(resolution=3), *texts]))
    found = aligned(sightings(tmp_path / "a"), sightings(tmp_path / "b"))
    assert (found.offset_ns, found.drift_ppb, found.untold > 500e-6) == (-500_000, 0, True)


@pytest.mark.parametrize("seed", range(200))
def test_small_recordings(seed: int) -> None:
    """Checks that few frames, some lost, of repeated bytes too, give an offset within the noise and a drift within what
    is told, or are refused: these only where the same bytes come again."""
    chance = np.random.default_rng(seed)
    count, span = int(np.exp(chance.uniform(1, 6))), int(np.exp(chance.uniform(np.log(1e4), np.log(7.2e12))))
    sent, noise, tick = np.sort(chance.integers(0, span, count)), chance.uniform(0, 2000), int(chance.choice([1, 1000]))
    drift, offset = chance.uniform(-200e-6, 200e-6), int(chance.integers(-10**12, 10**12))
    keys = np.arange(count, dtype=np.uint64) % np.uint64(chance.choice([255, 1000])) << np.uint64(50)
    late = (AT + sent + offset + (sent * drift + chance.uniform(0, noise, count)).astype(np.int64)) // tick * tick
    first, second = chance.random((2, count)) >= chance.uniform(0, 0.3)
    if not (first & second).any():
        return
    try:
        found = aligned(Sightings(AT, 1, keys[first], AT + sent[first]),
                        Sightings(int(late[second][0]), tick, keys[second], late[second]))
    except Unaligned:
        assert len(np.unique(keys)) < count
        return
    over = max(found.seconds * SECOND, 1)
    off = late - found.line.base - found.line.over(late) - AT - sent
    assert np.abs(off[first & second]).max() <= 3000 + 2 * noise + 2 * tick + min(found.untold, 400e-6) * over
    assert abs(drift / (1 + drift) - found.line.drift) <= max(found.untold, 7 * (noise + tick) / over)


@pytest.mark.parametrize("name, shown", [(b"a\nb", "a\\nb"), (b"\xff", "\\udcff"), ("ä b".encode(), "ä b")])
def test_names_that_no_comment_can_have(tmp_path: Path, capsys: pytest.CaptureFixture[str], name: bytes,
                                        shown: str) -> None:
    """Checks that the rules that are printed are TOML all the same."""
    path = tmp_path / os.fsdecode(name)
    path.write_bytes(captures.pcap([Record(AT, frame(1, 1))]))
    assert main(["--align", str(path), str(path)]) == 0
    said = capsys.readouterr().out
    assert toml.content(said.encode()).keys() == {"offset_ns", "drift_ppb"}
    assert f"{tmp_path}/{shown} by the clock of {tmp_path}/{shown}: " in said.splitlines()[0]


def test_a_recording_that_breaks_off(tmp_path: Path, capsys: pytest.CaptureFixture[str]) -> None:
    """Checks that the break is said, and that what was whole before is used."""
    marks = [Record(AT + number, frame(number, 1)) for number in (1, 2)]
    (tmp_path / "a").write_bytes(captures.pcap(marks)[:-1])
    (tmp_path / "b").write_bytes(captures.pcap(marks))
    assert main(["--align", str(tmp_path / "a"), str(tmp_path / "b")]) == 0
    assert capsys.readouterr().err == (
        "afdx-import: warning: breaks off; what was whole before is used, a, record 2, offset 100\n")


def test_check_sequences_are_left_out(tmp_path: Path) -> None:
    sent = traffic(1, random.Random(1))
    checked = [Record(one.stamp, captures.checked(one.frame)) for one in sent]
    (tmp_path / "a").write_bytes(captures.pcap(checked))
    (tmp_path / "b").write_bytes(captures.pcap(other(sent, 1000, 0, lambda: 0)))
    found = aligned(sightings(tmp_path / "a"), sightings(tmp_path / "b"))
    assert (found.offset_ns, found.drift_ppb, found.pairs) == (-1000, 0, len(sent))


BURST = [Record(AT + stamp, frame(1, 1)) for stamp in (0, 60_000, 110_000)]
MANY = [Record(AT + number * 10**7, frame(number, 1)) for number in range(200)]
SAME = [Record(AT + number * 10**7, frame(1, 1)) for number in range(100)]


@pytest.mark.parametrize("a, b, said", [
    ([], [Record(AT, frame(1, 1))], "no frames, {}/a"),
    ([Record(AT, frame(1, 1))], [Record(AT, frame(1, 1)[:50], 60)], "all frames are cut, {}/b"),
    ([Record(AT, frame(1, 1))], [Record(AT, frame(1, 2))], "no frame is in both recordings"),
    (SAME, SAME, "the same frames come again and again: more than one offset fits"),
    (BURST, other(BURST, 37_000_000, 0, lambda: 0), "the same frames come again and again: more than one offset fits"),
    (MANY, other(MANY, 0, 300_000, lambda: 0), "the clocks drift apart by more than 200 parts in a million")])
def test_what_cannot_be_aligned(tmp_path: Path, a: list[Record], b: list[Record], said: str) -> None:
    (tmp_path / "a").write_bytes(captures.pcap(a))
    (tmp_path / "b").write_bytes(captures.pcap(b))
    with pytest.raises(Failure) as caught:
        main(["--align", str(tmp_path / "a"), str(tmp_path / "b")])
    assert caught.value.lines == (f"afdx-import: {said.format(tmp_path)}, {tmp_path}/a and {tmp_path}/b",)


def test_frames_that_come_for_hours_take_little_memory() -> None:
    """Checks it of frames of the same bytes, of which each could pair with any other: a thousand million pairs."""
    stamp = AT + np.arange(40_000) * 2 * 10**6
    seen = Sightings(AT, 1, np.zeros(len(stamp), np.uint64), stamp)
    tracemalloc.start()
    with pytest.raises(Unaligned):
        aligned(seen, seen)
    peak = tracemalloc.get_traced_memory()[1]
    tracemalloc.stop()
    assert peak < 150 * 2**20


def test_a_bounded_part_of_many_frames_is_kept() -> None:
    """Checks that the part is the same of both recordings: what has low keys."""
    samplers = Sampler(), Sampler()
    numbers = np.random.default_rng(1).integers(0, 2**63, 3 * MOST_KEPT).astype(np.uint64) << np.uint64(1)
    for sampler, keys in zip(samplers, (numbers, numbers[::-1])):
        for part in np.array_split(keys, 7):
            sampler.add(part, np.zeros(len(part), np.int64))
        assert MOST_KEPT // 4 < sampler.count <= MOST_KEPT
    kept = [set(np.concatenate(sampler.keys).tolist()) for sampler in samplers]
    assert kept[0] == kept[1]


def test_frames_that_are_most_of_all_push_out_no_others(tmp_path: Path) -> None:
    """Checks it, and what is said if there are no others."""
    text = captures.record(AT, frame(1, 1)) * (MOST_KEPT + 9)
    for name, some in ("a", 0), ("b", 99):
        others = [Record(AT + 10**9 * number, frame(2, number)) for number in range(some)]
        (tmp_path / name).write_bytes(captures.pcap(others) + text)
    with pytest.raises(Unaligned, match="again and again"):
        aligned(sightings(tmp_path / "a"), sightings(tmp_path / "b"))
    found = aligned(sightings(tmp_path / "b"), sightings(tmp_path / "b"))
    assert (found.offset_ns, found.pairs) == (0, 99)
