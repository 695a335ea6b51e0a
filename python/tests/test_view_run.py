"""The numbers of a page, from answers of the program that were written by hand."""
from pathlib import Path

import pytest

from afdx.view import arrivals, pictures, verdict
from afdx.view.bars import Bar, bars_of
from afdx.view.spells import Spell
from tests import answered


@pytest.fixture(params=[250_000, 1], ids=["in one piece", "row by row"], autouse=True)
def piece(request: pytest.FixtureRequest, monkeypatch: pytest.MonkeyPatch) -> None:
    """Has the files read in pieces of so many rows."""
    monkeypatch.setattr(arrivals, "ROWS", request.param)


def test_a_run(tmp_path: Path) -> None:
    answered.put_answers(tmp_path)
    run = answered.read(tmp_path)
    assert (run.clock.first, run.span) == (answered.FIRST, 4_000_000)
    assert run.fates.many == {"passed": 4, "policed": 2, "foreign": 1}
    facts = [(pair.link, pair.port, pair.priority, pair.passed, pair.policed, pair.sent, pair.full, pair.aged,
              pair.slack) for pair in run.pairs]
    assert facts == [(10, 2, "high", 2, 2, 2, 0, 0, 10), (11, 1, "low", 2, 0, 1, 1, 0, 200),
                     (11, 2, "low", 2, 0, 1, 0, 1, 600)]


def test_points_are_at_the_stamps_of_frames(tmp_path: Path) -> None:
    """Checks that the latency is not in the places of points, though `came` has it."""
    answered.put_answers(tmp_path)
    drawn = answered.read(tmp_path).drawn
    kept = [[points.tolist() for points in drawn.links.points(place)] for place in range(3)]
    assert kept == [[[0, 3_000_000], [200, 240]], [[4_000_000], [300]], [[2_000_000], [400]]]
    high, low = ([points.tolist() for points in drawn.run.points(group)] for group in (0, 1))
    assert high == [[0, 3_000_000], [0.8, 0.96]]
    assert low == [[2_000_000, 4_000_000], [0.4, 0.6]]
    group = drawn.port_group(2, "high")
    assert drawn.ports.points(group)[1].tolist() == [200, 240]


def test_policing(tmp_path: Path) -> None:
    """Counts the spells of policed frames that are 1.5 ms apart, more than the link's gap of 1 ms."""
    answered.put_answers(tmp_path)
    policed = answered.read(tmp_path).policed
    assert policed.links == policed.watched == [10]
    babbling = policed.spells[10]
    assert babbling.spells == [Spell(400, 400, 1), Spell(1_500_400, 1_500_400, 1)]
    assert (babbling.least, babbling.greatest) == (100, 999_600)
    assert policed.early.points(0)[1].tolist() == [999_600, 100]
    assert policed.passed.points(0)[0].tolist() == [0, 3_000_000]


def test_the_verdict(tmp_path: Path) -> None:
    answered.put_answers(tmp_path)
    said = verdict.verdict_of(answered.read(tmp_path))
    assert (said.kind, said.broken) == ("bad", ["port 2 breaks L2 L4"])
    assert (said.frames, said.sent, said.lost, said.policed) == (7, 4, 2, 2)
    assert [babbler.link for babbler in said.babblers] == [10]
    assert said.nearest and (said.nearest.link, said.nearest_is_policed) == (10, True)
    assert said.close == 1  # of 80 %, link 10 alone


@pytest.mark.parametrize("policed, lost, kind", [(False, False, "good"), (True, False, "policed"), (True, True, "bad")])
def test_the_kind_of_the_verdict(tmp_path: Path, policed: bool, lost: bool, kind: str) -> None:
    rows = answered.ARRIVALS
    if not policed:
        rows = rows.replace("policed,999600", "cut,").replace("policed,100", "cut,")
    departures = answered.DEPARTURES
    if not lost:
        rows = rows.replace("passed,,1", "passed,,")
        departures = "\n".join(line for line in departures.splitlines() if "aged" not in line)
    answered.put_answers(tmp_path, answered.SIZE.replace("L2;L4", ""), arrivals=rows, departures=departures)
    assert verdict.verdict_of(answered.read(tmp_path)).kind == kind


def test_broken_ports_are_named_up_to_three(tmp_path: Path) -> None:
    heading, _, row = answered.SIZE.splitlines()
    answered.put_answers(tmp_path, "\n".join([heading, *(row.replace("2,20", f"{port},20") for port in range(2, 7))]))
    assert verdict.broken_of(answered.read(tmp_path)) == [
        "port 2 breaks L2 L4", "port 3 breaks L2 L4", "port 4 breaks L2 L4", "2 more ports"]


def test_no_frames(tmp_path: Path) -> None:
    answered.put_answers(tmp_path, measured=answered.MEASURED.replace("delays,10,2,2", "delays,10,2,0"),
                         arrivals=answered.ARRIVALS.splitlines()[0], departures=answered.DEPARTURES.splitlines()[0])
    run = answered.read(tmp_path)
    assert run.clock.first is None
    assert run.policed.links == []


def test_a_picture_of_a_port_without_points(tmp_path: Path, caplog: pytest.LogCaptureFixture) -> None:
    """Checks that there is no legend, of which matplotlib would say that it names nothing."""
    answered.put_answers(tmp_path, departures=answered.DEPARTURES.splitlines()[0])
    figure = pictures.port_delays(answered.read(tmp_path), 2)
    assert [axes.get_legend() for axes in figure.axes] == [None]
    assert not caplog.records


def test_bars() -> None:
    need = {"port": "2", "rate": "20", "rate_limit": "40", "buffer": "300", "buffer_limit": "200", "high": "250",
            "high_limit": "1000", "low": "", "low_limit": "1000", "breaks": "L2;L4"}
    seen = {"port": "2", "occupied": "150", "buffer": "200", "at": "5"}
    assert bars_of(need, seen) == [
        Bar("rate", "20 of 40 parts, 50 %", 50, False), Bar("buffer needed", "300 of 200 bytes, 150 %", 100, True),
        Bar("buffer used", "150 of 200 bytes, 75 %", 75, False, "used"),
        Bar("high delay, bound", "250 of 1,000 ns, 25 %", 25, False, "high"),
        Bar("low delay", "no bound, of 1,000 ns", 100, True)]


@pytest.mark.parametrize("wrong", [
    {"departures": answered.DEPARTURES.replace("2,1,0,10", "2,1,0,12")},  # a link that the port has not
    {"measured": answered.MEASURED.replace("delays,10", "delays,12")},
    {"measured": answered.MEASURED.replace("250,10,40", ",,")},  # of an unchecked run
    {"arrivals": answered.ARRIVALS.replace("fate", "fare")},
    {"arrivals": ""},
])
def test_answers_that_are_not_of_this_table(tmp_path: Path, wrong: dict[str, str]) -> None:
    answered.put_answers(tmp_path, **wrong)
    with pytest.raises((LookupError, ValueError)):
        answered.read(tmp_path)


def test_pictures_of_the_links_nearest_to_their_bounds(tmp_path: Path, monkeypatch: pytest.MonkeyPatch) -> None:
    monkeypatch.setattr("afdx.view.run.STRIPS", 2)
    answered.put_answers(tmp_path)
    assert [(pair.link, pair.port) for pair in answered.read(tmp_path).drawn.shown] == [(10, 2), (11, 1)]
