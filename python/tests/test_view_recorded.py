"""What the page shows of recordings of a switch, from answers of compare that were written by hand."""
import hashlib
from pathlib import Path

import pytest

from afdx import program
from afdx.failure import DEVICE, LOAD, USAGE, Failure
from afdx.view import answers, arrivals, command, differences
from afdx.view.answers import Compared, ToCompare
from afdx.view.differences import Difference
from afdx.view.recorded import Recordings
from afdx.view.run import Run
from afdx.view.strips import band
from tests import answered, recorded_answers
from tests.test_view_command import folder, refused

__all__ = ["folder"]  # the fixture, with whose table and captures pages are made
GIVEN = ["table.toml", ".", "page.html", "--answers", ".", "--recorded", "recorded", "--offset", "2=-1000"]


@pytest.fixture(params=[250_000, 1], ids=["in one piece", "row by row"])
def piece(request: pytest.FixtureRequest, monkeypatch: pytest.MonkeyPatch) -> None:
    """Has the files read in pieces of so many rows."""
    monkeypatch.setattr(arrivals, "ROWS", request.param)


def read(folder: Path, said: str = recorded_answers.SAID, rows: str = recorded_answers.ROWS) -> tuple[Run, Recordings]:
    answered.put_answers(folder)
    recorded_answers.put(folder, said, rows)
    asked = ToCompare("recorded", recorded_answers.OPTIONS)
    run = answered.read(folder, compared=Compared(asked, said, folder / "differences.csv"))
    assert run.recordings
    return run, run.recordings


def test_links_beside_the_model(tmp_path: Path) -> None:
    _, said = read(tmp_path)
    facts = [(link.model.link, link.model.port, link.verdict, link.model.greatest, link.greatest, link.bound,
              link.paired) for link in said.links]
    assert facts == [(10, 2, "differs", 240, 210, 280, 1), (11, 1, "differs", 300, None, 600, 0),
                     (11, 2, "differs", 400, 1300, 1200, 2)]
    assert said.nearest and said.nearest.model.link == 11
    assert (said.paired, said.unsure, said.kind, said.conforms) == (3, 3, "bad", False)


def test_sums_of_ports(tmp_path: Path) -> None:
    _, said = read(tmp_path)
    facts = [(port.port, port.verdict, port.seen, list(port.differences.values()), port.before, port.after)
             for port in said.ports]
    assert facts == [(1, "differs", 2, [0, 1, 0, 0, 0], 1, 1), (2, "differs", 4, [1, 0, 0, 1, 1], 0, 0)]
    assert said.totals() == {"missing": 1, "extra": 1, "late": 1, "foreign": 1}


@pytest.mark.usefixtures("piece")
def test_differences_by_port_and_time(tmp_path: Path) -> None:
    """Checks counts, rows and marks where what left at port 2 was 1000 ns earlier than its recorder said; a missing
    frame came when it did."""
    _, said = read(tmp_path)
    found, first = said.differences, answered.FIRST
    assert found.many == {(1, "extra"): 1, (2, "missing"): 1, (2, "foreign"): 1, (2, "late"): 1}
    assert found.rows == {
        1: [Difference(1, 11, "extra", first + 3_000_000, None, 2, None, None)],
        2: [Difference(2, 10, "missing", first, 1, None, None, 280),
            Difference(2, None, "foreign", first + 1_000_000, None, 2, None, None),
            Difference(2, 11, "late", first + 2_001_300, 1, 3, 1300, 1200)]}
    assert found.marks.points(found.group(2, "foreign"))[0].tolist() == [1_000_000]
    assert found.marks.points(found.group(1, "foreign"))[0].tolist() == []
    assert [found.ticks.points(place)[0].tolist() for place in range(3)] == [[0], [3_000_000], [2_001_300]]


@pytest.mark.usefixtures("piece")
def test_the_first_rows_of_each_port(tmp_path: Path, monkeypatch: pytest.MonkeyPatch) -> None:
    monkeypatch.setattr(differences, "SHOWN", 2)
    _, said = read(tmp_path)
    assert {port: [row.kind for row in rows] for port, rows in said.differences.rows.items()} == {
        1: ["extra"], 2: ["missing", "foreign"]}


@pytest.mark.parametrize("said, kind", [
    (recorded_answers.CONFORMS, "good"),
    (recorded_answers.NOTHING, "empty")])
def test_recordings_that_conform(tmp_path: Path, said: str, kind: str) -> None:
    _, found = read(tmp_path, said, recorded_answers.ROWS.splitlines()[0])
    assert (found.kind, found.conforms, found.totals()) == (kind, True, {})
    assert {link.verdict for link in found.links} == {port.verdict for port in found.ports} == {"conforms"}


@pytest.mark.parametrize("said, rows", [
    (recorded_answers.SAID.replace("differs", "conforms"), recorded_answers.ROWS),
    (recorded_answers.SAID.replace("10,2,2,1,1,", "10,2,2,1,2,"), recorded_answers.ROWS),
    (recorded_answers.SAID.replace("link,10,2", "link,12,2"), recorded_answers.ROWS),
    (recorded_answers.SAID, recorded_answers.ROWS.replace("late", "tardy")),
    (recorded_answers.SAID, recorded_answers.ROWS.replace("1,11,extra", "3,11,extra")),
    (recorded_answers.SAID, "no,such,columns\n")])
def test_answers_of_compare_that_are_of_another_run(tmp_path: Path, said: str, rows: str) -> None:
    with pytest.raises((LookupError, ValueError)):
        read(tmp_path, said, rows)


def test_a_band_by_hand() -> None:
    """Checks a band from a quarter of the scale to its half, and that what is past the scale is at the top."""
    assert band(25, 50, 100) == "M0 75V50H1000V75Z"
    assert band(90, 130, 100) == "M0 10V0H1000V10Z"


def test_offsets_of_all_options() -> None:
    assert ToCompare("out", ["--stamps=free", "--offset=3=-37200,1=+5", "--rest"]).offsets() == {3: -37200, 1: 5}


def test_a_page_of_recordings(folder: Path) -> None:
    """Checks that the page says what was compared, and how, and that all differences are put beside it."""
    recorded_answers.put(folder)
    (folder / "recorded").mkdir()
    for port in (1, 2):
        (folder / f"recorded/port-{port}.pcap").write_bytes(b"recorded" + bytes([port]))
    assert command.main(GIVEN) == 0
    page = " ".join((folder / "page.html").read_text().split())
    assert "1 missing, 1 extra, 1 late, 1 foreign ." in page.replace("foreign.", "foreign .")
    assert "<td>afdx-view table.toml . page.html --answers . --recorded recorded --offset=2=-1000 " in page
    assert "<tr><td>recordings compared by<td>afdx compare table.toml . recorded --offset=2=-1000 " in page
    for port in (1, 2):
        number = hashlib.sha256(b"recorded" + bytes([port])).hexdigest()
        assert f"<tr><td>SHA-256 of recorded/port-{port}.pcap, recorded<td>{number}" in page
    assert "<td>2<td>11<td>late<td>2.001 ms<td>2026-01-15 10:00:00.002001300<td>1<td>3<td>1,300<td>1,200" in page
    assert (folder / "page-differences.csv").read_text() == recorded_answers.ROWS


def test_a_file_beside_the_page_that_would_replace_an_input(folder: Path) -> None:
    recorded_answers.put(folder)
    (folder / "differences.csv").rename(folder / "page-differences.csv")
    (folder / "differences.csv").symlink_to("page-differences.csv")
    failure = refused(*GIVEN)
    assert (failure.status, failure.lines[0].startswith("afdx-view: the page would replace ")) == (USAGE, True)


def test_no_answers_of_compare(folder: Path) -> None:
    failure = refused(*GIVEN)
    assert (failure.status, failure.lines) == (
        DEVICE, ("afdx-view: cannot read compare.csv: No such file or directory",))


@pytest.mark.parametrize("arguments, said", [
    (["--tolerance", "5"], "--tolerance is for compare, which is run for --recorded alone"),
    (["--rest"], "--rest is for compare, which is run for --recorded alone"),
    (["--recorded", "out", "--unchecked"], "--recorded goes without --unchecked"),
    (["--recorded=-out"], "a name may not begin with a dash")])
def test_options_that_are_refused(arguments: list[str], said: str, capsys: pytest.CaptureFixture[str]) -> None:
    with pytest.raises(SystemExit) as ended:
        command.main(["table.toml", ".", "page.html", *arguments])
    assert ended.value.code == USAGE
    assert said in capsys.readouterr().err


def test_options_are_handed_on_as_they_are_given() -> None:
    """Checks that an option that is given twice, which the program refuses, is handed on too."""
    request = command.request_of(["t", "i", "p.html", "--recorded", "o", "--rest", "--stamps", "free", "--offset=1=5",
                                  "--offset", "2=-5", "--least-latency", "3"])
    assert request.recordings == ToCompare("o", ["--least-latency=3", "--stamps=free", "--offset=1=5", "--offset=2=-5",
                                                 "--rest"])


@pytest.mark.parametrize("status", [0, 1, USAGE, LOAD])
def test_that_recordings_differ_is_an_answer(tmp_path: Path, status: int) -> None:
    file = tmp_path / "program"
    file.write_text(f"#!/bin/sh\necho \"$@\"\necho refused >&2\nexit {status}\n")
    file.chmod(0o755)
    asked = program.Program("afdx-view", str(file))
    if status > 1:
        with pytest.raises(Failure) as caught:
            answers.compare(asked, "t", "in", ToCompare("out", ["--rest"]), tmp_path)
        assert (caught.value.status, caught.value.lines) == (status, ("refused",))
        return
    found = answers.compare(asked, "t", "in", ToCompare("out", ["--rest"]), tmp_path)
    assert found.said == f"compare t in out --rest --rows {tmp_path} --csv\n"
    assert found.rows == tmp_path / "differences.csv"
