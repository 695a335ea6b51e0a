"""What afdx-view refuses, and where its page says that it comes from."""
import hashlib
import logging
import os
import re
import tempfile
from pathlib import Path

import pytest

from afdx import modules, program
from afdx.failure import DEVICE, USAGE, Failure
from afdx.view import answers, command, making, page, provenance
from afdx.view.table import Link, Table
from tests import answered

TABLE = """latency_us = 5
[[port]]
id = 1
[[port]]
id = 2
[[link]]
id = 10
bag_ms = 1
priority = "high"
[[link]]
id = 11
bag_ms = 2
priority = "low"
"""


@pytest.fixture
def folder(tmp_path: Path, monkeypatch: pytest.MonkeyPatch) -> Path:
    """Has a table, two captures and the answers to a run over them in the working folder."""
    monkeypatch.chdir(tmp_path)
    monkeypatch.setenv("SOURCE_DATE_EPOCH", "1768471200")
    answered.put_answers(tmp_path)
    (tmp_path / "table.toml").write_text(TABLE)
    for port in (1, 2):
        (tmp_path / f"port-{port}.pcap").write_bytes(bytes([port]))
    return tmp_path


def refused(*arguments: str) -> Failure:
    with pytest.raises(Failure) as caught:
        command.main(arguments)
    return caught.value


@pytest.mark.parametrize("arguments", [
    ["table.toml", ".", "page.htm"], ["--", "-table.toml", ".", "page.html"], ["--", "table.toml", ".", "-page.html"],
    ["--", "table.toml", "-in", "page.html"], ["table.toml", ".", "page.html", "--answers=-here"],
    ["table.toml", ".", "page.html", "--answers", "here", "--recorded", "out", "--offset", "3"]])
def test_names_that_are_refused(arguments: list[str], capsys: pytest.CaptureFixture[str]) -> None:
    with pytest.raises(SystemExit) as ended:
        command.main(arguments)
    assert ended.value.code == USAGE
    assert "afdx-view: error: " in capsys.readouterr().err


def test_a_python_without_a_module(monkeypatch: pytest.MonkeyPatch) -> None:
    monkeypatch.setattr(modules, "find_spec", lambda name: None if name in ("jinja2", "matplotlib") else name)
    failure = refused("table.toml", ".", "page.html")
    assert failure.status == DEVICE
    assert "no jinja2, matplotlib in " in failure.lines[0]
    assert "install python3-jinja2 python3-matplotlib " in failure.lines[0]


def test_that_fonts_are_looked_for_is_not_told() -> None:
    modules.need("afdx-view", "matplotlib")
    for name in ("matplotlib", "matplotlib.font_manager"):
        assert not logging.getLogger(name).isEnabledFor(logging.WARNING)


@pytest.mark.parametrize("name", ["table.toml", "port-2.pcap", "departures.csv"])
def test_a_page_that_would_replace_what_it_is_made_of(folder: Path, name: str) -> None:
    os.link(folder / name, folder / "page.html")
    failure = refused("table.toml", ".", "page.html", "--answers", ".")
    assert failure.status == USAGE
    assert failure.lines[0].startswith("afdx-view: the page would replace ")
    assert (folder / "page.html").samefile(folder / name)


def test_a_pipe(folder: Path) -> None:
    os.mkfifo(folder / "pipe")
    with pytest.raises(Failure) as caught:
        answers.need_files("afdx-view", ["table.toml", "none", "pipe"])
    assert caught.value.lines == ("afdx-view: pipe is not a file, and the program reads it more than once",)


def test_no_temporary_folder(tmp_path: Path, monkeypatch: pytest.MonkeyPatch) -> None:
    monkeypatch.setattr(tempfile, "tempdir", str(tmp_path / "none"))
    with pytest.raises(Failure) as caught:
        with answers.answered(program.Program("afdx-view", "/bin/true"), "", "table.toml", "in"):
            pass
    assert (caught.value.status, caught.value.lines) == (
        DEVICE, ("afdx-view: cannot make a temporary folder: No such file or directory",))


def test_answers_of_another_table(folder: Path) -> None:
    (folder / "table.toml").write_text(TABLE.replace("id = 11", "id = 12"))
    failure = refused("table.toml", ".", "page.html", "--answers", ".")
    assert failure.status == DEVICE
    assert failure.lines == (
        "afdx-view: the files in . are not what size, measure and trace answer of table.toml",)


@pytest.mark.parametrize("name, old, new", [
    ("arrivals.csv", "1768471200000000000", "99999999999999999999"), ("measure.csv", ",250,10,40,", ",0,10,40,"),
    ("size.csv", "2,20,2048000000", "2,20,"), ("departures.csv", "2,1,0,10,", "2,1,0,-1,")])
def test_answers_whose_numbers_are_none(folder: Path, name: str, old: str, new: str) -> None:
    text = (folder / name).read_text()
    assert old in text
    (folder / name).write_text(text.replace(old, new))
    failure = refused("table.toml", ".", "page.html", "--answers", ".")
    assert (failure.status, failure.lines) == (
        DEVICE, ("afdx-view: the files in . are not what size, measure and trace answer of table.toml",))


@pytest.mark.parametrize("name, old, new", [
    ("departures.csv", "2,2,4,11,low,64,1768471200002005000,0,0,400,sent\n", ""),  # the rows of some links alone
    ("measure.csv", "delays,11,1,1,", "delays,11,1,2,"),
    ("measure.csv", "delays,11,1,1,300,", "delays,11,1,0,,"),
    ("measure.csv", "1768471200002000000", "1768471199999999999"),  # before the first frame
    ("measure.csv", "1768471200002000000", "1768471200004000001"),  # after the last one
    ("arrivals.csv", ",1768471200", ","), ("size.csv", ",250,1000,", ",251,1000,"),
    ("size.csv", ",500,1000,", ",,1000,"), ("size.csv", "1,10,", "3,10,")])
def test_answers_of_several_runs(folder: Path, name: str, old: str, new: str) -> None:
    """Checks that answers which contradict each other are refused, as of `trace` with `--link` or `--relative`."""
    text = (folder / name).read_text()
    assert old in text
    (folder / name).write_text(text.replace(old, new))
    failure = refused("table.toml", ".", "page.html", "--answers", ".")
    assert (failure.status, failure.lines) == (
        DEVICE, ("afdx-view: the files in . are not what size, measure and trace answer of table.toml",))
    assert not (folder / "page.html").exists()


def test_a_trace_without_frames(folder: Path) -> None:
    """Checks that the files of `trace --link` of a link without frames are refused, and so is a stamp without any."""
    stamp = answered.NOTHING_LEFT.replace("2,,,,,,,0,200,", "2,,,,,,,64,200,1768471200002000000")
    for measured in (answered.MEASURED, stamp):
        answered.put_answers(folder, measured=measured, arrivals=answered.ARRIVALS.splitlines()[0],
                             departures=answered.DEPARTURES.splitlines()[0])
        assert refused("table.toml", ".", "page.html", "--answers", ".").status == DEVICE


def test_answers_of_a_run_that_was_unchecked(folder: Path) -> None:
    """Checks that no bound is looked for where `measure` has none."""
    answered.put_answers(folder, answered.SIZE.replace(",500,", ",,"), re.sub(
        r"(delays(?:,\d+){5}),\d+,\d+,\d+", r"\1,,,", answered.MEASURED))
    assert command.main(["table.toml", ".", "page.html", "--answers", ".", "--unchecked"]) == 0


def test_a_page_of_answers(folder: Path) -> None:
    """Checks that the page says what it was made of, and when, and nothing of the host."""
    assert command.main(["table.toml", str(folder), str(folder / "page.html"), "--answers", "."]) == 0
    page = (folder / "page.html").read_text()
    assert "<td>afdx-view table.toml " + folder.name + " page.html --answers .\n" in page
    assert "<td>2026-01-15 10:00:00 UTC\n" in page
    for name in ("table.toml", "departures.csv"):
        assert hashlib.sha256((folder / name).read_bytes()).hexdigest() in page
    assert str(folder) not in page and os.uname().nodename not in page
    assert "The program was not run for this page" in page


def test_what_the_text_of_a_page_says(folder: Path) -> None:
    making.make("afdx-view", command.request_of(["table.toml", ".", "page.html", "--answers", "."]))
    page = " ".join((folder / "page.html").read_text().split())
    assert '<p class="verdict bad"> <b>Not accepted</b>: port 2 breaks L2 L4. 7 frames in, 4 copies out,' in page
    assert "<b>2 lost</b>, 2 policed." in page
    assert "<b>Link 10 babbled in 2 spells</b> between 0.000 ms (2026-01-15 10:00:00.000000400 UTC) and" in page
    assert "The buffer was fullest at 2.000 ms (2026-01-15 10:00:00.002000000 UTC)." in page


def test_a_page_of_no_frames(folder: Path) -> None:
    answered.put_answers(folder, measured=answered.NOTHING_LEFT,
                         arrivals=answered.ARRIVALS.splitlines()[0], departures=answered.DEPARTURES.splitlines()[0])
    command.main(["table.toml", ".", "page.html", "--answers", "."])
    page = (folder / "page.html").read_text()
    assert "<b>No frame came in.</b>" in page
    assert "1970" not in page


def test_very_many_spells(tmp_path: Path) -> None:
    """Checks that of twelve links that are policed each 200 ms, 60,000 times, what is drawn and listed does not grow
    with them."""
    table = Table(0, [1], {link: Link(1_000_000, "low") for link in range(12)})
    stamps = [(link, answered.FIRST + 200_000_000 * spell + link) for spell in range(5000) for link in range(12)]
    rows = [f"{frame},1,{frame + 1},{stamp},64,{link},policed,100," for frame, (link, stamp) in enumerate(stamps)]
    arrivals = "\n".join([answered.ARRIVALS.splitlines()[0], *rows, ""])
    size = "port 1 rate 10 of 2048000000 buffer 100 of 200 high - low 500 of 1000 fits\n"
    nothing_left = answered.DEPARTURES.splitlines()[0]
    answered.put_answers(tmp_path, size, "out 1 occupied 0 of 200 at -\n", arrivals, nothing_left)
    run = answered.read(tmp_path, table)
    assert [run.policed.spells[link].count for link in range(12)] == [5000] * 12
    nowhere = provenance.Provenance([], [], "", "", "")
    text = page.page(run, "", nowhere, program.Progress("test"), "")
    assert len(text) < 1_000_000
    assert text.count(".. and 4,992 spells more") == 12


def test_names_are_text_of_the_page(folder: Path) -> None:
    name = "<b>&\udcff.toml"
    (folder / "table.toml").rename(name)
    command.main([name, ".", "page.html", "--answers", "."])
    page = (folder / "page.html").read_text()
    assert "<h1>&lt;b&gt;&amp;\ufffd.toml over .</h1>" in page


@pytest.mark.parametrize("time", ["soon", "-99999999999999"])
def test_a_time_that_is_none(folder: Path, monkeypatch: pytest.MonkeyPatch, time: str) -> None:
    monkeypatch.setenv("SOURCE_DATE_EPOCH", time)
    failure = refused("table.toml", ".", "page.html", "--answers", ".")
    assert (failure.status, failure.lines) == (USAGE, (f"afdx-view: SOURCE_DATE_EPOCH is not a time: {time}",))


@pytest.mark.parametrize("said, proofs", [
    ("afdx 1.0\nkit 4\nproved 12ab\n", "proved 12ab"), ("afdx 1.0\nkit 4\nnot proved\n", "not proved"),
    ("afdx 1.0\nkit 4\n", "the program does not say whether it is proved")])
def test_what_the_program_says_of_its_proofs(tmp_path: Path, said: str, proofs: str) -> None:
    file = tmp_path / "program"
    file.write_text(f"#!/bin/sh\ncat <<'END'\n{said}END\n")
    file.chmod(0o755)
    asked = program.Program("afdx-view", str(file))
    origin = provenance.provenance_of("afdx-view", asked, [], {})
    assert (origin.program, origin.proofs) == ("afdx 1.0 · kit 4", proofs)
    assert origin.sums == [("afdx", hashlib.sha256(file.read_bytes()).hexdigest())]


def test_the_promise_is_that_of_readme() -> None:
    top = Path(__file__).resolve().parents[2]
    promised = re.search("^> Under an (.*)$", (top / "README.md").read_text("utf-8"), re.MULTILINE)
    page = (top / "python/afdx/view/templates/promise.html").read_text("utf-8").rstrip()
    assert promised and page.endswith(f", then under this {promised[1]}")


def test_names_without_the_host() -> None:
    assert [provenance.shown(name) for name in ("in/a", "/home/somebody/in", "./t.toml")] == ["in/a", "in", "./t.toml"]
