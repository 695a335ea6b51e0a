"""The tables of three switches in a triangle, worked out by hand, jitters too."""
import csv
import io
import sys
import tomllib
from pathlib import Path

import openpyxl
import pytest
import tomlkit
from hypothesis import given, strategies

from afdx.failure import DEVICE, Failure
from afdx.icd import cells, command, tables
from afdx.icd.cells import Unfit
from tests import worked_lists

# Jitters by docs/use/RULES.md, J + most - least, in ns. N = 2,048,000,000.
#   link 10 at A.20, 1000 Mbit/s: r = 21 * 8 * 200 * 64 = 2,150,400, r * 2,040,000 / N = 2,142, and (80 + 20) * 8 = 800
#       for a low frame: most 2,942. 64 bytes take 672. At B: 40,000 + 2,942 - 672 = 42,270, so 43 us.
#   link 10 at A.22, 100 Mbit/s: 21 * 80 * 200 * 64 * 2,040,000 / N = 21,420, least 6,720. At C: 54,700, so 55 us.
#   link 11 at A.20: r = 16 * 8 * 100 * 32 = 409,600, (2,150,400 * 2,040,000 + r * 4,000,000) / (N - 2,150,400) = 2,945.
#       At B: 2,945 - 672 = 2,273, so 3 us.
#   link 11 at B.21: r * 4,003,000 / N = 800. At C: 2,945 + 800 - 2 * 672 = 2,401, so 3 us.
#   link 12 at C.22: 21 * 80 * 1518 * 129,000,000 / N = 160,635. At A: 1,000,000 + 160,635 - 6,720 = 1,153,915,
#       so 1154 us.
B_TABLE = """\
# Written by afdx-icd: what is changed here by hand is lost when it runs again.
version = 3
constant = "03000000"
latency_us = 0

[[port]] # B1
id = 1
mbit = 100
buffer = 16777216
max_delay_us = 500000

[[port]] # cable to A.20
id = 20
mbit = 1000
buffer = 16777216
max_delay_us = 500000

[[port]] # cable to C.21
id = 21
mbit = 1000
buffer = 16777216
max_delay_us = 500000

[[link]] # positions
id = 10
from = 20 # cable to A.20
to = [1] # B1
bag_ms = 2
jitter_us = 43
max_size = 200
priority = "high"
police = "byte"

[[link]] # attitude
id = 11
from = 20 # cable to A.20
to = [21] # cable to C.21
bag_ms = 4
jitter_us = 3
max_size = 80
priority = "low"
police = "frame"
"""
ROWS = {  # id, from, to, jitter_us
    "A": [(10, 1, [20, 22], 40), (11, 1, [20], 0), (12, 22, [2], 1154), (13, 1, [2], 0)],
    "B": [(10, 20, [1], 43), (11, 20, [21], 3)],
    "C": [(10, 22, [1], 55), (11, 21, [1, 8], 3), (12, 8, [22], 1000)],
}
WIRES = [("A.20", "B.20", 50), ("A.22", "C.22", 25), ("B.20", "A.20", 50), ("B.21", "C.21", 0), ("C.21", "B.21", 0),
         ("C.22", "A.22", 25)]
SAID = """\
A.toml ports 4 links 4 {0}
B.toml ports 3 links 2 {0}
C.toml ports 4 links 3 {0}
network.toml switches 3 {0}
"""


def made(paths: list[Path], net: Path, *options: str) -> dict[str, bytes]:
    """Runs the command, which has to end well; returns the files of its folder."""
    assert command.main([*map(str, paths), str(net), *options]) == 0
    return {path.name: path.read_bytes() for path in sorted(net.iterdir())}


def test_rows_worked_by_hand(tmp_path: Path) -> None:
    files = made(worked_lists.write(tmp_path), tmp_path / "net")
    assert list(files) == ["A.toml", "B.toml", "C.toml", "network.toml"]
    for switch, rows in ROWS.items():
        links = tomllib.loads(files[f"{switch}.toml"].decode())["link"]
        assert [(link["id"], link["from"], link["to"], link["jitter_us"]) for link in links] == rows
    network = tomllib.loads(files["network.toml"].decode())
    assert network["switch"] == [{"name": name, "table": f"{name}.toml"} for name in "ABC"]
    assert [(wire["from"], wire["to"], wire["delay_ns"]) for wire in network["wire"]] == WIRES


def test_names_stand_beside_the_rows(tmp_path: Path) -> None:
    assert made(worked_lists.write(tmp_path), tmp_path / "net")["B.toml"].decode() == B_TABLE


def test_a_second_run_changes_nothing(tmp_path: Path, capfdbinary: pytest.CaptureFixture[bytes]) -> None:
    paths, net = worked_lists.write(tmp_path), tmp_path / "net"
    first = made(paths, net)
    times = [path.stat().st_mtime_ns for path in net.iterdir()]
    assert capfdbinary.readouterr().out.decode().startswith(SAID.format("written"))
    assert made(paths, net) == first
    assert [path.stat().st_mtime_ns for path in net.iterdir()] == times
    assert capfdbinary.readouterr().out.decode().startswith(SAID.format("unchanged"))


def test_a_switch_that_one_cable_alone_names(tmp_path: Path, capsys: pytest.CaptureFixture[str]) -> None:
    """Checks that the table of such a switch is made, with a warning."""
    paths = worked_lists.write(tmp_path, wires=worked_lists.WIRES + "C,9,Bx,9,100,0\n")
    assert list(made(paths, tmp_path / "net")) == ["A.toml", "B.toml", "Bx.toml", "C.toml", "network.toml"]
    assert capsys.readouterr().err == (
        "afdx-icd: warning: switch Bx has this cable alone and no end system: is its name right?, "
        f'{paths[2]} line 5, column switch_b, value "Bx"\n')


def test_what_is_not_read_is_named(tmp_path: Path, capfdbinary: pytest.CaptureFixture[bytes]) -> None:
    """Checks the lines of columns and sheets, and the warning of a heading that has another number than one that is
    read."""
    paths, mapping = worked_lists.write(tmp_path), tmp_path / "map.toml"
    mapping.write_text('[columns]\nto = "Dest 1"\n', encoding="utf-8")
    made(paths, tmp_path / "net")
    said = capfdbinary.readouterr().out.decode()
    book = openpyxl.Workbook()
    for row in csv.reader(io.StringIO(worked_lists.LINKS.replace(",to,", ",Dest 1,"))):
        book.active.append([*row, *(["The\nway", "DEST_2", 5] if row[0] == "id" else [])])
    book.create_sheet("part 2").append(["15", "more"])
    book.create_sheet("empty")
    book.save(tmp_path / "icd.xlsx")
    made([tmp_path / "icd.xlsx", *paths[1:]], tmp_path / "net", "--mapping", str(mapping))
    place, answer = f'{tmp_path}/icd.xlsx sheet', capfdbinary.readouterr()
    unread = f'{place} "Sheet" not read: "The way", "DEST_2", "5"\n{place} "part 2" not read\n'
    assert answer.out.decode() == unread + said.replace("written", "unchanged")
    what = 'not read, but "Dest 1" is: what counts has to be in that column'
    assert answer.err.decode() == f'afdx-icd: warning: {what}, {place} "Sheet" line 1, column DEST_2\n'


def test_a_size_of_the_mapping_counts_where_the_row_has_none(tmp_path: Path) -> None:
    links = worked_lists.LINKS.replace(",128,1000,1518,", ",128,1000,,")
    paths, mapping = worked_lists.write(tmp_path), tmp_path / "map.toml"
    first = made(paths, tmp_path / "net")
    paths = worked_lists.write(tmp_path, links)
    for default in ("max_size = 1518", "udp_payload = 1471"):
        mapping.write_text(f"[defaults]\n{default}\n", encoding="utf-8")
        assert made(paths, tmp_path / "net", "--mapping", str(mapping)) == first


def test_a_warning_that_nobody_takes(tmp_path: Path, monkeypatch: pytest.MonkeyPatch) -> None:
    paths = worked_lists.write(tmp_path, wires=worked_lists.WIRES + "C,9,Bx,9,100,0\n")
    with io.TextIOWrapper(open("/dev/full", "wb", buffering=0)) as full:
        monkeypatch.setattr(sys, "stderr", full)
        assert "Bx.toml" in made(paths, tmp_path / "net")


def test_the_order_of_the_lists_is_no_matter(tmp_path: Path) -> None:
    def backwards(text: str) -> str:
        heading, *rows = text.splitlines(keepends=True)
        return heading + "".join(reversed(rows))
    first = made(worked_lists.write(tmp_path), tmp_path / "net")
    paths = worked_lists.write(tmp_path, *map(backwards, (worked_lists.LINKS, worked_lists.ENDS, worked_lists.WIRES)))
    assert made(paths, tmp_path / "net") == first


def test_a_changed_row_changes_its_rows_alone(tmp_path: Path) -> None:
    first = made(worked_lists.write(tmp_path), tmp_path / "net")
    links = worked_lists.LINKS.replace("13,local,A1,A2,8,", "13,near,A1,A2,16,")
    second = made(worked_lists.write(tmp_path, links), tmp_path / "net")
    assert [name for name in first if first[name] != second[name]] == ["A.toml"]
    pairs = zip(first["A.toml"].decode().splitlines(), second["A.toml"].decode().splitlines(), strict=True)
    assert [pair for pair in pairs if pair[0] != pair[1]] == [
        ("[[link]] # local", "[[link]] # near"), ("bag_ms = 8", "bag_ms = 16")]


def test_a_mapping_names_columns_and_fills_cells(tmp_path: Path) -> None:
    paths, mapping = worked_lists.write(tmp_path), tmp_path / "map.toml"
    first = made(paths, tmp_path / "net")
    heading = 'VL,Name,"Sending\nend system",Receivers'
    links = worked_lists.LINKS.replace("id,name,from,to", heading).replace(",128,1000,", ",128,,")
    ends = worked_lists.ENDS.replace("name,switch", "ES,Switch")
    worked_lists.write(tmp_path, links.replace("jitter_us", "JITTER"), ends, worked_lists.WIRES.replace(",50", ","))
    mapping.write_text('[columns]\nid = "vl"\nfrom = "sending end system"\nto = "Receivers"\njitter_us = "Jitter"\n'
                       '[columns.ends]\nname = "ES"\n[defaults]\njitter_us = 1000\n[defaults.wires]\ndelay_ns = "50"\n'
                       '[switches]\nlatency_us = 16\nleast_latency_us = 16\nconstant = "070000aa"\n', encoding="utf-8")
    second = made(paths, tmp_path / "mapped", "--mapping", str(mapping))
    assert b'table = "A.toml"\nleast_latency_us = 16\n' in second["network.toml"]
    assert b"least" not in first["network.toml"]
    assert b"delay_ns = 25" in second["network.toml"] and b"delay_ns = 0\n" not in second["network.toml"]
    as_first = second["A.toml"].replace(b"latency_us = 16", b"latency_us = 0").replace(b"070000aa", b"03000000")
    assert as_first == first["A.toml"]


def test_a_file_that_cannot_be_put_leaves_nothing_of_it(tmp_path: Path) -> None:
    net = tmp_path / "net"
    (net / "B.toml").mkdir(parents=True)
    with pytest.raises(Failure, match=f"^afdx-icd: cannot write {net}/B.toml: Is a directory$") as ended:
        command.main([*map(str, worked_lists.write(tmp_path)), str(net)])
    assert ended.value.status == DEVICE
    assert sorted(path.name for path in net.iterdir()) == ["A.toml", "B.toml"]


@given(name=strategies.text(strategies.characters(blacklist_categories=("Cs",))))
def test_any_name_that_can_be_printed_stands_in_a_comment(name: str) -> None:
    try:
        line = cells.printable(name)
    except Unfit:
        return
    text = tomlkit.dumps(tables.document({"version": 3}, {"link": [tables.section(line, {"id": 10})]}))
    assert tomllib.loads(text) == {"version": 3, "link": [{"id": 10}]}
    assert f"[[link]] # {line}\n" in text or not line
