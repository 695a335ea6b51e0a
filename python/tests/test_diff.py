"""What differs between tables and networks, by worked rows."""
import csv
import io
from pathlib import Path

import pytest
from hypothesis import given, strategies

from afdx.diff import command, compare
from afdx.diff.facts import NONE, Facts, Place
from afdx.failure import DEVICE, INPUT, USAGE, Failure

# The table of docs/use/RULES.md that is worked through under "Load", with its bounds.
TABLE = """\
[[port]]
id = 1
mbit = 100
buffer = 6000
max_delay_us = 400
[[port]]
id = 2
mbit = 100
buffer = 6000
max_delay_us = 400
[[link]]
id = 10
from = 1
to = [2]
bag_ms = 1
jitter_us = 0
max_size = 1518
priority = "low"
[[link]]
id = 12
from = 1
to = [2]
bag_ms = 1
jitter_us = 0
max_size = 1518
priority = "high"
"""
# Links 1, 2 and 3 of "Networks" there: at B each needs 14 us.
PORTS = "".join(f"[[port]]\nid = {port}\nmbit = 100\nbuffer = 6000\nmax_delay_us = 9000\n" for port in range(1, 5))
ROW = "[[link]]\nid = {}\nfrom = {}\nto = [{}]\nbag_ms = 1\njitter_us = {}\nmax_size = 64\npriority = \"low\"\n"
NETWORK = """\
[[switch]]
name = "A"
table = "a.toml"
[[switch]]
name = "B"
table = "b.toml"
[[wire]]
from = "A.4"
to = "B.1"
"""
A = PORTS + "".join(ROW.format(link, link, 4, 0) for link in (1, 2, 3))
B = PORTS + "".join(ROW.format(link, 1, 2, 14) for link in (1, 2, 3))


def lines(old: Path, new: Path, capfdbinary: pytest.CaptureFixture[bytes], *options: str) -> list[str]:
    """Runs the command; its status says whether it prints anything but a heading."""
    status = command.main([str(old), str(new), *options])
    said = capfdbinary.readouterr().out.decode().splitlines()
    assert status == (len(said) > (1 if options else 0))
    return said


def tables(folder: Path, old: str, new: str) -> tuple[Path, Path]:
    paths = folder / "old.toml", folder / "new.toml"
    for path, text in zip(paths, (old, new)):
        path.write_text(text, encoding="utf-8")
    return paths


def network(folder: Path, a: str = A, b: str = B, text: str = NETWORK) -> Path:
    folder.mkdir()
    for name, content in (("a.toml", a), ("b.toml", b), ("network.toml", text)):
        (folder / name).write_text(content, encoding="utf-8")
    return folder / "network.toml"


def test_a_changed_row_with_its_bounds(tmp_path: Path, capfdbinary: pytest.CaptureFixture[bytes]) -> None:
    # the high link's BAG doubled: r = 163,215,360, g as before, R = 489,646,080, low 652,861,440,000,000 / (N - r)
    first, second = TABLE.split("id = 12")
    old, new = tables(tmp_path, TABLE, first + "id = 12" + second.replace("bag_ms = 1", "bag_ms = 2"))
    assert lines(old, new, capfdbinary) == [
        "link 12 changed: bag_ms 1 -> 2",
        "load 2 changed: rate 652861440 -> 489646080, low 379224 -> 346385"]


def test_rows_added_and_gone(tmp_path: Path, capfdbinary: pytest.CaptureFixture[bytes]) -> None:
    ports = "".join(f"[[port]]\nid = {port}\nmbit = 10\nbuffer = 1\nmax_delay_us = 2\n" for port in (17, 9))
    old, new = tables(tmp_path, TABLE, "version = 3\nlatency_us = 5\n" + ports + TABLE.rsplit("[[link]]", 1)[0])
    assert lines(old, new, capfdbinary) == [
        "table changed: latency_us 0 -> 5",
        "port 9 added: mbit 10, buffer 1, max_delay_us 2",
        "port 17 added: mbit 10, buffer 1, max_delay_us 2",
        "link 12 gone: from 1, to 2, bag_ms 1, jitter_us 0, max_size 1518, priority high, police byte",
        "load 2 changed: rate 652861440 -> 326430720, buffer 5523 -> 3531, high 282430 -> -, low 379224 -> 164390"]


def test_order_and_what_stands_for_missing_keys_are_no_difference(
        tmp_path: Path, capfdbinary: pytest.CaptureFixture[bytes]) -> None:
    third = "[[port]]\nid = 3\nmbit = 10\nbuffer = 90000\nmax_delay_us = 90000\n"
    first = TABLE.replace("to = [2]", "to = [2, 3]")
    port, second, link, other = (f"[[{part}" for part in first.replace("[2, 3]", "[3, 2]").split("[[")[1:])
    old, new = tables(tmp_path, first + third, 'version = 3\nconstant = "03000000"\n' + other + link
                      + 'police = "byte"\n' + third + second + "# a comment\n" + port)
    assert lines(old, new, capfdbinary) == []
    assert lines(old, new, capfdbinary, "--csv") == [",".join(compare.HEADING)]


def test_a_table_that_is_newly_refused(tmp_path: Path, capfdbinary: pytest.CaptureFixture[bytes]) -> None:
    old, new = tables(tmp_path, TABLE, TABLE.replace("max_delay_us = 400", "max_delay_us = 283"))
    assert lines(old, new, capfdbinary) == [
        "port 1 changed: max_delay_us 400 -> 283",
        "port 2 changed: max_delay_us 400 -> 283",
        "load 2 refused: breaks - -> L4",
        "check refused: verdict accepted -> afdx: load L4 LowDelay, port 2, need 379224, limit 283000"]
    assert lines(new, old, capfdbinary)[2] == "load 2 changed: breaks L4 -> -"
    old, new = tables(tmp_path, new.read_text(encoding="utf-8"), TABLE.replace("400", "283").replace("6000", "5522"))
    assert "load 2 refused: breaks L4 -> L2 L4" in lines(old, new, capfdbinary)
    assert "load 2 changed: breaks L2 L4 -> L4" in lines(new, old, capfdbinary)


def test_a_network_with_needs_and_ways(tmp_path: Path, capfdbinary: pytest.CaptureFixture[bytes]) -> None:
    old = network(tmp_path / "old")
    without = PORTS + ROW.format(1, 1, 4, 0) + ROW.format(3, 3, 4, 0)
    new = network(tmp_path / "new", without, PORTS + ROW.format(1, 1, 2, 14) + ROW.format(3, 1, 2, 14))
    said = lines(old, new, capfdbinary)
    # at A.4 each link asks for 6,720 ns: of two, b = 13,440, so that B needs 6,720 ns
    assert "A link 2 gone: from 2, to 4, bag_ms 1, jitter_us 0, max_size 64, priority low, police byte" in said
    assert "B need 1 changed: jitter_us 14 -> 7" in said
    assert "A load 4 changed: rate 41287680 -> 27525120, buffer 336 -> 252, low 20160 -> 13440" in said
    assert "way 2 to B.2 gone: start A.2, ways A.4 B.2" in [",".join(line.split(",")[:2]) for line in said]
    assert [line.split(": ")[0] for line in said if line.startswith("way")] == [
        "way 1 to B.2 changed", "way 2 to B.2 gone", "way 3 to B.2 changed"]
    assert not any("refused" in line for line in said)


def test_a_network_that_is_newly_refused(tmp_path: Path, capfdbinary: pytest.CaptureFixture[bytes]) -> None:
    old = network(tmp_path / "old")
    new = network(tmp_path / "new", b=B.replace("jitter_us = 14", "jitter_us = 13", 1),
                  text=NETWORK + "delay_ns = 5\n[[wire]]\nfrom = \"B.4\"\nto = \"A.4\"\n")
    said = [line for line in lines(old, new, capfdbinary) if "load" not in line or "refused" in line]
    assert said == [
        "wire A.4 changed: delay_ns 0 -> 5",
        "wire B.4 added: to A.4, delay_ns 0, down false",
        "B link 1 changed: jitter_us 14 -> 13",
        "B need 1 refused: lacks 0 -> 1",
        "check refused: verdict accepted -> afdx: network J1 Jitter, switch B, link 1, need 14, has 13"]


def test_separated_values_say_the_same(tmp_path: Path, capfdbinary: pytest.CaptureFixture[bytes]) -> None:
    old = network(tmp_path / "old")
    new = network(tmp_path / "new", text=NETWORK.replace("A.4", "A.3"))
    said = list(csv.DictReader(io.StringIO("\n".join(lines(old, new, capfdbinary, "--csv")))))
    assert said[0] == {"switch": "", "kind": "wire", "name": "A.3", "change": "added", "field": "to", "before": "-",
                       "after": "B.1"}
    assert [row["after"] for row in said if row["kind"] == "check"] == ["afdx: network G8 NoSource, switch B, link 1"]


@pytest.mark.parametrize("name, text, status, line", [
    ("none.toml", None, DEVICE, "cannot read {}: No such file or directory"),
    ("bad.toml", "[[port]\n", INPUT, "not TOML 1.0: "),
    ("bad.toml", f"version = {'1' * 5000}\n", INPUT, "not TOML 1.0: "),
    ("bad.toml", f"version = {'[' * 5000}\n", INPUT, "not TOML 1.0: "),
    ("bad.toml", "[[port]]\nid = 25\n", INPUT, "table C6 Range, port 1, id, {}"),
    ("bad.toml", NETWORK.replace("B.1", "C.1"), INPUT, "network G3 NoSuchSwitch, wire 1, {}"),
    ("bad.toml", NETWORK, USAGE, "a table and a network file, ")])
def test_files_that_cannot_be_compared(tmp_path: Path, name: str, text: str | None, status: int, line: str) -> None:
    old, new = network(tmp_path / "net").with_name("a.toml"), tmp_path / "net" / name
    if text is not None:
        new.write_text(text, encoding="utf-8")
    with pytest.raises(Failure) as ended:
        command.main([str(old), str(new)])
    assert ended.value.status == status
    assert ended.value.lines[0].startswith(f"afdx-diff: {line.format(new)}")


FACTS: strategies.SearchStrategy[Facts] = strategies.dictionaries(
    strategies.builds(Place, strategies.sampled_from(["", "A", "B"]), strategies.sampled_from(["port", "link", "wire"]),
                      strategies.sampled_from(["1", "2", "10", "A.1"])),
    strategies.dictionaries(strategies.sampled_from(["from", "to"]), strategies.sampled_from(["1", "2"]), min_size=1))
CHECK: Facts = {Place("", "check", ""): {"verdict": "accepted"}}


@given(old=FACTS, new=FACTS)
def test_differences_lead_from_one_side_to_the_other(old: Facts, new: Facts) -> None:
    made = {place: dict(values) for place, values in old.items()}
    for differing in compare.differences(old | CHECK, new | CHECK):
        values = made.pop(differing.place, {}) | {name: after for name, _, after in differing.values}
        if differing.change != "gone":
            made[differing.place] = {name: value for name, value in values.items() if value != NONE}
    assert made == new
    back = {differing.place: differing.values for differing in compare.differences(new | CHECK, old | CHECK)}
    assert back.keys() == {differing.place for differing in compare.differences(old | CHECK, new | CHECK)}
