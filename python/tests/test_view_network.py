"""The numbers of a network's page, from answers of the program that were written by hand, and what is refused."""
import re
from dataclasses import replace
from pathlib import Path

import numpy
import pytest

from afdx import networks
from afdx.failure import INPUT, USAGE, Failure
from afdx.program import Program, Progress
from afdx.view import arrivals, command
from afdx.view.network import answers, following, layout, picture, run, verdict
from afdx.view.network.layout import Layout, Port, Wire
from afdx.view.network.page import page
from afdx.view.provenance import Provenance
from captures import Record, pcap, read_pcap
from tests import networks_answered as answered


@pytest.fixture(params=[250_000, 1], ids=["in one piece", "row by row"], autouse=True)
def piece(request: pytest.FixtureRequest, monkeypatch: pytest.MonkeyPatch) -> None:
    """Has the files read in pieces of so many rows."""
    monkeypatch.setattr(arrivals, "ROWS", request.param)


def test_a_network_file_has_switches_or_wires() -> None:
    assert networks.is_network({"switch": []}) and networks.is_network({"wire": []})
    assert not networks.is_network({}) and not networks.is_network({"port": [], "link": []})


def test_the_layout_of_a_network_file() -> None:
    content = {"switch": [{"name": "A", "table": "a.toml"}, {"name": "B-1", "table": "/there/b.toml"}],
               "wire": [{"from": "A.3", "to": "B-1.12", "delay_ns": 25}, {"from": "B-1.12", "to": "A.3"}]}
    found = layout.layout_of(content, Path("here"))
    assert found.tables == {"A": Path("here/a.toml"), "B-1": Path("/there/b.toml")}
    assert found.wires == [Wire(Port("A", 3), Port("B-1", 12), 25), Wire(Port("B-1", 12), Port("A", 3), 0)]


def test_the_rows_of_size_by_switch() -> None:
    heading, *rows = answered.SIZE.splitlines()
    assert answers.sizes_of(answered.SIZE)["A"].splitlines() == [heading, *rows[:2]]
    assert answers.sizes_of(heading) == {}


def test_each_frame_is_followed_to_its_end_system(tmp_path: Path) -> None:
    """Checks the first arrival of each frame. At A frames 0, 1 and 3 are of an end system, and 2 is B's 3; at B 0 and 4
    are A's 0 and 3."""
    said = answered.answers(tmp_path)
    frames = following.frames_of(said)
    assert frames.begins.tolist() == [0, 4, 9]
    assert following.origins_of(said, answered.LAYOUT, frames).tolist() == [0, 1, 7, 3, 0, 5, 6, 7, 3]


def test_what_left_is_read_to_the_nanosecond(tmp_path: Path) -> None:
    """Reads the instants also beside a copy that was discarded, which has none at which it left."""
    said = answered.answers(tmp_path)
    with (tmp_path / "B" / "departures.csv").open("a") as file:
        file.write(f"2,,1,12,high,64,{answered.FIRST + 400},,,,aged\n")
    left = [int(at) - answered.FIRST for rows in following.sent(said, "B") for at in rows.left]
    assert left == [5200, 500, 610, 1_000_610]


def test_frames_over_many_wires() -> None:
    """Follows frames also back to switches where they were."""
    before = numpy.array([0, 0, 1, 2, 3, 5, 5, 6])
    assert following.roots_of(before).tolist() == [0, 0, 0, 0, 0, 5, 5, 5]


def test_answers_that_do_not_fit_together(tmp_path: Path) -> None:
    said = answered.answers(tmp_path)
    rows = (tmp_path / "A" / "departures.csv").read_text().splitlines()
    (tmp_path / "A" / "departures.csv").write_text("\n".join(rows[:-1]) + "\n")
    with pytest.raises(ValueError, match="1 frames left at A.2, and 2 came"):
        run.read(answered.asked(), said, Progress("test"))


def test_the_ways(tmp_path: Path) -> None:
    """Checks that the delays of ways are from the stamp at the first switch to the end on the last line, not from
    switch to switch."""
    ways = answered.read(tmp_path).ways
    assert [(way.link, f"{way.start} {way.end}", way.priority, " ".join(map(str, way.ports)), way.jitters, way.floor,
             way.bound, way.passed, way.policed, way.sent, way.least, way.greatest, way.slack) for way in ways] == [
        (10, "A.1 B.2", "low", "A.2 B.2", [0, 1], 200, 1000, 2, 1, 2, 610, 610, 390),
        (11, "B.3 A.1", "low", "B.1 A.1", [0, 2], 200, 500, 1, 0, 1, 300, 300, 200),
        (12, "B.3 B.2", "high", "B.2", [0], 100, 400, 1, 0, 1, 100, 100, 300)]


def test_the_ways_of_a_network_that_is_refused(tmp_path: Path) -> None:
    """Checks that these are the ways that frames took, and that nothing is promised of them."""
    found = answered.read(tmp_path, answered.asked(False, "", ("afdx: network J1 Jitter, ..",)))
    ways = found.ways
    assert [(way.link, f"{way.start} {way.end}", way.ports, way.bound, way.share, way.sent) for way in ways] == [
        (10, "A.1 B.2", [], None, None, 2), (11, "B.3 A.1", [], None, None, 1), (12, "B.3 B.2", [], None, None, 1)]


def test_a_way_that_is_none(tmp_path: Path) -> None:
    said = re.sub("^12,.*\n", "", answered.CHECK, flags=re.MULTILINE)
    with pytest.raises(ValueError, match="a frame on a way that is none"):
        answered.read(tmp_path, answered.asked(said=said))


def test_the_layout_of_an_outage() -> None:
    """Checks that a wire is down if it says so, or if a switch at one of its ends does; the other direction of a cable
    is not."""
    content = {"switch": [{"name": "A", "table": "a.toml"}, {"name": "B", "table": "b.toml", "down": False},
                          {"name": "C", "table": "c.toml", "down": True}],
               "wire": [{"from": "A.1", "to": "B.1", "down": True}, {"from": "B.1", "to": "A.1", "down": False},
                        {"from": "A.2", "to": "C.1"}, {"from": "C.1", "to": "A.2"}]}
    found = layout.layout_of(content, Path("here"))
    assert found.down == {"C"}
    assert [wire.down for wire in found.wires] == [True, False, True, True]
    assert list(found.going_on()) == [Port("B", 1)]


def test_an_outage(tmp_path: Path, monkeypatch: pytest.MonkeyPatch) -> None:
    """Checks that what left for the wire that is down went no further: it did not leave the network, and the end has
    none."""
    found = answered.read(tmp_path, answered.cut(monkeypatch))
    assert [(way.link, way.sent, way.least) for way in found.ways] == [(11, 1, 300), (12, 1, 100)]
    assert [(end.link, str(end.end)) for end in found.lost] == [(10, "B.2")]
    assert (found.totals.frames, found.totals.sent) == (6, 2)
    text = " ".join(page(found, "", Provenance([], [], "", "", ""), Progress("test")).split())
    assert "<b>Accepted.</b> <b>1 end gets nothing</b>, as something is down." in text
    assert '<tr><td>10<td>-<td><a href="#at-B">B.2</a><td>-<td>-<td>none<td>-' in text


def test_what_comes_in_in_an_outage(tmp_path: Path) -> None:
    """Checks that captures have no frames over a wire that is down, and at each port of a switch that is."""
    cut = Layout(answered.LAYOUT.tables, [Wire(Port("A", 2), Port("B", 1), 100, True), answered.WIRES[1]])
    asked, folder = replace(answered.asked(), layout=cut), tmp_path / "given"
    for path in (tmp_path / "out", folder):
        for switch, table in answered.TABLES.items():
            (path / switch).mkdir(parents=True)
            for number in table.ports:
                (path / switch / f"port-{number}.pcap").write_bytes(pcap([Record(answered.FIRST, bytes(60))]))
    came = answers.gather("test", asked, "B", str(folder), tmp_path)
    assert [len(read_pcap((came / f"port-{number}.pcap").read_bytes())[0]) for number in (1, 2, 3)] == [0, 1, 1]
    down = replace(asked, layout=replace(cut, down=frozenset("A")))
    came = answers.gather("test", down, "A", str(folder), tmp_path)
    assert [(came / f"port-{number}.pcap").read_bytes() for number in (1, 2)] == [pcap([])] * 2


def test_what_is_drawn_of_ways(tmp_path: Path) -> None:
    found = answered.read(tmp_path)
    assert (found.first, found.span) == (answered.FIRST, 1_000_310)
    points = [tuple(column.tolist() for column in found.drawn.strips.points(place)) for place in range(3)]
    assert points == [([0, 1_000_000], [610, 610]), ([5000], [300]), ([400], [100])]
    high, low = ([column.tolist() for column in found.drawn.run.points(group)] for group in (0, 1))
    assert high == [[400], [0.25]]
    assert low == [[0, 5000, 1_000_000], [0.61, 0.6, 0.61]]


def test_all_switches_have_one_time(tmp_path: Path) -> None:
    found = answered.read(tmp_path)
    assert {(own.clock.first, own.span) for own in found.runs.values()} == {(answered.FIRST, 1_000_310)}


def test_totals_and_loads(tmp_path: Path) -> None:
    """Checks that frames over wires count as none of an end system's, and those to a wire as none that left."""
    found = answered.read(tmp_path)
    assert (found.totals.frames, found.totals.sent, found.totals.lost, found.totals.policed) == (6, 4, 0, 1)
    assert found.totals.sent == sum(way.sent for way in found.ways)
    assert [(str(load.port), load.share, load.held, load.sent, str(load.wire.end) if load.wire else None)
            for load in found.loads] == [("A.1", 0.1, 64, 1, None), ("A.2", 0.25, 64, 2, "B.1"),
                                         ("B.1", 0.1, 64, 1, "A.2"), ("B.2", 0.95, 128, 3, None)]


def test_the_verdict(tmp_path: Path) -> None:
    said = verdict.verdict_of(answered.read(tmp_path))
    assert (said.kind, said.refused, said.others, said.close) == ("policed", [], 0, 0)
    babblers = [(one.switch, one.babbler) for one in said.babblers]
    assert [(switch, one.link, one.babbling.frames, one.passed) for switch, one in babblers] == [("A", 10, 1, 2)]
    assert said.nearest and (said.nearest.link, said.nearest_is_policed) == (10, True)


def test_refusals_up_to_three(tmp_path: Path) -> None:
    said = verdict.verdict_of(answered.read(tmp_path, answered.asked(False, "", ("1", "2", "3", "4", "5"))))
    assert (said.kind, said.refused, said.nearest) == ("bad", ["1", "2", "3", "2 more lines"], None)


@pytest.mark.parametrize("wires, columns", [
    ([("A", "B"), ("B", "C")], [["A"], ["B"], ["C"]]), ([("B", "A"), ("B", "C")], [["A"], ["B"], ["C"]]),
    ([("A", "B"), ("B", "C"), ("C", "A")], [["A"], ["B", "C"]]), ([("A", "B")], [["A", "C"], ["B"]]),
    ([], [["A", "B", "C"]])])
def test_columns_of_switches(wires: list[tuple[str, str]], columns: list[list[str]]) -> None:
    """Checks that the columns go from one end of the network to the other; parts without a wire between them are below
    one another."""
    drawn = Layout({name: Path(name) for name in "ABC"},
                   [Wire(Port(start, 1), Port(end, 1), 0) for start, end in wires])
    assert picture.columns_of(drawn) == columns


def test_the_drawing(tmp_path: Path) -> None:
    """Checks that boxes are apart, and that a wire leads from border to border, and is as broad as its load."""
    wide, narrow = picture.drawings(answered.read(tmp_path))
    assert [(box.switch, box.lines) for box in wide.boxes] == [
        ("A", ["port 2 → B.1: 25 %", "1 port to end systems: 10 %"]),
        ("B", ["port 1 → A.2: 10 %", "1 port to end systems: 95 %"])]
    for drawing in (wide, narrow):
        first, second = drawing.boxes
        assert first.x + first.width < second.x or first.y + first.height < second.y
        assert all(box.x + box.width <= drawing.width and box.y + box.height <= drawing.height for box in drawing.boxes)
        assert [(line.said, line.width, line.over, line.down) for line in drawing.lines] == [
            ("A.2 to B.1: 25 %", 1.5 + 5.5 * 0.25, False, False), ("B.1 to A.2: 10 %", 1.5 + 5.5 * 0.1, False, False)]
    a, b = wide.boxes
    forth, back = (tuple(map(float, re.findall(r"[\d.]+", line.path))) for line in wide.lines)
    assert (forth[0], forth[2], back[0], back[2]) == pytest.approx((a.x + a.width, b.x, b.x, a.x + a.width), abs=0.1)
    assert forth[1] == forth[3] != back[1] == back[3]


def test_the_drawing_of_an_outage(tmp_path: Path, monkeypatch: pytest.MonkeyPatch) -> None:
    asked = answered.cut(monkeypatch)
    found = answered.read(tmp_path, replace(asked, layout=replace(asked.layout, down=frozenset("A"))))
    for drawing in picture.drawings(found):
        assert [(box.name, box.lines[0]) for box in drawing.boxes] == [("A, down", "port 2 → B.1: down"),
                                                                       ("B", "port 1 → A.2: 10 %")]
        assert [(line.said, line.width, line.down) for line in drawing.lines] == [
            ("A.2 to B.1: down", 1.5, True), ("B.1 to A.2: 10 %", 1.5 + 5.5 * 0.1, False)]


@pytest.mark.parametrize("nanoseconds", [1, 999_999_999])
def test_what_left_comes_so_much_later(tmp_path: Path, nanoseconds: int) -> None:
    records = [Record(answered.FIRST + at, bytes([at % 7]) * (60 + at % 3)) for at in (0, 5, 999_999_998, 10**9)]
    (tmp_path / "left.pcap").write_bytes(pcap(records))
    answers.delay("test", tmp_path / "left.pcap", tmp_path / "came.pcap", nanoseconds)
    later = [Record(record.stamp + nanoseconds, record.frame, record.original) for record in records]
    assert (tmp_path / "came.pcap").read_bytes() == pcap(later)
    assert len(read_pcap((tmp_path / "came.pcap").read_bytes())[0]) == 4


def test_nothing_that_left(tmp_path: Path) -> None:
    (tmp_path / "left.pcap").write_bytes(pcap([]))
    answers.delay("test", tmp_path / "left.pcap", tmp_path / "came.pcap", 7)
    assert (tmp_path / "came.pcap").read_bytes() == pcap([])


def test_the_text_of_a_page(tmp_path: Path) -> None:
    found = answered.read(tmp_path)
    text = " ".join(page(found, "<net> over in", Provenance([], [], "", "", ""), Progress("test")).split())
    assert "<h1>&lt;net&gt; over in</h1> <p class=\"verdict policed\"> <b>Accepted.</b> 6 frames in from end" in text
    assert "<b>Link 10 was policed at A</b>, 1 of its 3 frames, at 0.000 ms (2026-01-15 10:00:00." in text
    assert "link 10 from A.1 to B.2, took 61 % of it (610 of 1,000 ns)." in text
    plain = re.sub(r"<svg.*?</svg>", "", text)
    names, leads = (re.findall(rf'{key}([^"]*)"', plain) for key in ('id="', 'href="#'))
    assert len(names) == len(set(names))
    assert set(leads) <= set(names)


def test_no_frames(tmp_path: Path, monkeypatch: pytest.MonkeyPatch) -> None:
    empty: dict[str, list[object]] = {"A": [], "B": []}
    monkeypatch.setattr(answered, "ARRIVALS", empty)
    monkeypatch.setattr(answered, "DEPARTURES", empty)
    rows = (row.split(",") for row in answered.REPORT.splitlines())
    counted = (",".join([*row[:5], *(re.sub(r"\d+", "0", field) for field in row[5:])]) for row in rows)
    monkeypatch.setattr(answered, "REPORT", "\n".join(counted))
    found = answered.read(tmp_path)
    assert (found.first, found.totals.frames, {way.sent for way in found.ways}) == (None, 0, {0})
    text = page(found, "", Provenance([], [], "", "", ""), Progress("test"))
    assert "<b>No frame came in.</b>" in text and "1970" not in text


SAID = " under the premise one_line, whatever frames"
TESTED = "The premise one_line, as the network file says: "


@pytest.mark.parametrize("premises, said", [((), (False, False)), (("premise one_line",), (True, True))])
def test_a_premise_is_said(tmp_path: Path, premises: tuple[str, ...], said: tuple[bool, bool]) -> None:
    """Checks that the promise names the premise on which the bounds rest, and says what it is, if there is one."""
    found = answered.read(tmp_path, answered.asked(premises=premises))
    text = page(found, "", Provenance(["afdx"], [], "", "", ""), Progress("test"))
    assert (SAID in text, TESTED in text) == said
    assert ('whole way, under the premise one_line (<a href="#origin">' in text) == said[0]


@pytest.mark.parametrize("unchecked, premises", [(False, ["premise one_line"]), (True, [])])
def test_the_premise_is_the_program_s_line(tmp_path: Path, monkeypatch: pytest.MonkeyPatch, unchecked: bool,
                                           premises: list[str]) -> None:
    """Checks that the line is that of `check` without --csv, and that none is asked for if nothing is promised."""
    monkeypatch.chdir(tmp_path)
    Path("net.toml").write_text("one_line = true\nswitch = []\n")
    assert answers.ask_size(Program("test"), "net.toml", unchecked).premises == premises


def test_the_names_of_a_network_s_files() -> None:
    """Checks that names are whole below a folder that begins at the root, and that nothing above it is in them."""
    tables = {"A": Path("/home/somebody/A/table.toml"), "B": Path("/home/else/table.toml")}
    asked = replace(answered.asked(), name="/home/somebody/net.toml", layout=Layout(tables, answered.WIRES))
    for folder in ("/home/somebody/in", "/"):
        assert list(answers.inputs_of(asked, folder).values()) == [
            "net.toml", "A/table.toml", "table.toml", "A/port-1.pcap", "B/port-2.pcap", "B/port-3.pcap"]
    assert answers.inputs_of(asked, "in")["in/A/port-1.pcap"] == "in/A/port-1.pcap"


def test_tables_of_one_name() -> None:
    """Checks that the switch tells tables apart that lie in other folders, and not those that are one file."""
    tables = {"A": Path("/one/table.toml"), "B": Path("/other/table.toml"), "C": Path("/one/c.toml"),
              "D": Path("/one/c.toml")}
    asked = replace(answered.asked(), name="net.toml", layout=Layout(tables, answered.WIRES))
    assert list(map(asked.shown_table, tables)) == ["table.toml of A", "table.toml of B", "c.toml", "c.toml"]


@pytest.mark.parametrize("text", ["switch = []\n", "wire = []\n"])
def test_a_network_without_switches(tmp_path: Path, monkeypatch: pytest.MonkeyPatch, text: str) -> None:
    monkeypatch.chdir(tmp_path)
    Path("net.toml").write_text(text)
    assert command.main(["net.toml", ".", "page.html"]) == 0
    assert "<b>No frame came in.</b>" in Path("page.html").read_text("utf-8")


def test_a_network_file_of_wires_alone(tmp_path: Path) -> None:
    (tmp_path / "net.toml").write_text('[[wire]]\nfrom = "A.1"\nto = "B.1"\n')
    with pytest.raises(Failure) as caught:
        command.main([str(tmp_path / "net.toml"), str(tmp_path), str(tmp_path / "page.html")])
    assert (caught.value.status, caught.value.lines) == (INPUT, ("afdx: network G3 NoSuchSwitch, wire 1",))


@pytest.mark.parametrize("options", [["--answers", "."], ["--recorded", "."]])
def test_what_is_for_a_table(tmp_path: Path, monkeypatch: pytest.MonkeyPatch, options: list[str]) -> None:
    monkeypatch.chdir(tmp_path)
    Path("net.toml").write_text('[[switch]]\nname = "A"\ntable = "a.toml"\n')
    with pytest.raises(Failure) as caught:
        command.main(["net.toml", ".", "page.html", *options])
    assert caught.value.status == USAGE
    assert caught.value.lines == (f"afdx-view: {options[0]} is for a table, and net.toml is of a network",)


def test_the_promise_is_that_of_readme() -> None:
    top = Path(__file__).resolve().parents[2]
    readme = (top / "README.md").read_text("utf-8").replace("`", "").lower()
    promise = (top / "python/afdx/view/templates/network_promise.html").read_text("utf-8").lower()
    for sentence in promise.split("hold, ")[1].splitlines()[0].rstrip(".").split("; "):
        assert sentence in readme
