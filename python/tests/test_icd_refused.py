"""Every kind of bad row: all are said at once, each with its line, column and value."""
from pathlib import Path

import openpyxl
import pytest
from openpyxl.styles import Font

from afdx.failure import INPUT, Failure
from afdx.icd import command, mapping, network
from afdx.icd.complaints import Complaints
from afdx.icd.network import lists_of
from tests import worked_lists

GOOD = {"id": "20", "name": "heading", "from": "A1", "to": "B1", "bag_ms": "8", "jitter_us": "0", "max_size": "100",
        "udp_payload": "", "priority": "high", "police": "", "via": ""}
END = {"name": "gyro", "switch": "A", "port": "3", "mbit": "100", "buffer": "64", "max_delay_us": "9"}
WIRE = {"switch_a": "A", "port_a": "11", "switch_b": "B", "port_b": "11", "mbit": "10", "delay_ns": "", "buffer": "",
        "max_delay_us": ""}
BAD_LINKS = [
    ("id", "", "empty"),
    ("id", "x20", "not a whole number"),
    ("id", "-1", "not a whole number"),
    ("id", "65536", "not from 0 to 65535"),
    ("id", "012C", "not a whole number"),
    ("id", "0132", "begins with 0, as hexadecimal numbers may: it has to be decimal, without zeros in front"),
    ("id", "00", "begins with 0, as hexadecimal numbers may: it has to be decimal, without zeros in front"),
    ("name", "a\u0007b", "has a character that cannot be printed"),
    ("from", "", "empty"),
    ("from", "gyro", "no such end system"),
    ("to", "", "empty"),
    ("to", "B1|gyro", "no such end system as gyro"),
    ("to", "B1||C1", "an empty name between two separators"),
    ("to", "B1,B1", "has B1 twice"),
    ("to", "B1|A1", "A1 would send to itself"),
    ("bag_ms", "3", "not one of 1, 2, 4, 8, 16, 32, 64, 128"),
    ("bag_ms", "4.5", "not a whole number"),
    ("jitter_us", "10001", "not from 0 to 10000"),
    ("max_size", "63", "not from 64 to 1518"),
    ("max_size", "1519", "not from 64 to 1518"),
    ("max_size", "", "neither the largest frame nor its UDP payload is there"),
    ("udp_payload", "1472", "not from 0 to 1471"),
    ("priority", "medium", "not high or low"),
    ("police", "bits", "not byte or frame"),
    ("via", "D", "no such switch as D"),
    ("via", "B|A", "the way would come to A twice"),
    ("via", "B|C", "no destination lies at or beyond C"),
]
BAD_ENDS = [
    ("name", "", "empty"),
    ("name", "A1", "{ends} line 2 has it too"),
    ("switch", "the bay", "not 1 to 16 of A-Z a-z 0-9 - _"),
    ("switch", "Network", "the table would have the network file's name"),
    ("port", "25", "not from 1 to 24"),
    ("port", "1", "{ends} line 2 has it too"),
    ("mbit", "50", "not one of 10, 100, 1000"),
    ("buffer", "16777217", "not from 0 to 16777216"),
    ("max_delay_us", "0", "not from 1 to 500000"),
]
BAD_WIRES = [
    ("switch_a", "", "empty"),
    ("port_a", "1", "{ends} line 2 has it too"),
    ("switch_b", "A", "the cable leads to its own switch"),
    ("port_a", "20", "{wires} line 2 has it too"),
    ("port_b", "21", "{wires} line 3 has it too"),
    ("delay_ns", "1000001", "not from 0 to 1000000"),
]


def row(good: dict[str, str], column: str = "", value: str = "") -> str:
    """Writes a row in which one cell is another."""
    cells = good | {column: value} if column else good
    return ",".join(f'"{cell}"' for cell in cells.values()) + "\n"


def rows(good: dict[str, str], bad: list[tuple[str, str, str]]) -> str:
    return ",".join(good) + "\n" + "".join(row(good, column, value) for column, value, _ in bad)


def refusal(paths: list[Path], *options: str) -> Failure:
    """Returns how the command ends for these lists, which has to be before it writes anything."""
    net = paths[0].parent / "net"
    with pytest.raises(Failure) as ended:
        command.main([*map(str, paths), str(net), *options])
    assert ended.value.status == INPUT and not net.exists()
    return ended.value


def line(what: str, path: Path, number: int, column: str, value: str) -> str:
    shown = value.replace("\u0007", "\\u0007")
    return f'afdx-icd: {what}, {path} line {number}, column {column}, value "{shown}"'


@pytest.mark.parametrize("column, value, what", BAD_LINKS)
def test_each_bad_cell_of_a_link(tmp_path: Path, column: str, value: str, what: str) -> None:
    paths = worked_lists.write(tmp_path, ",".join(GOOD) + "\n" + row(GOOD | {"id": "21"}) + row(GOOD, column, value))
    assert refusal(paths).lines == (line(what, paths[0], 3, column, value),)


def test_all_bad_links_at_once(tmp_path: Path) -> None:
    other = [bad for bad in BAD_LINKS if bad[0] != "id"]
    text = ",".join(GOOD) + "\n" + "".join(row(GOOD | {"id": str(at), column: value})
                                           for at, (column, value, _) in enumerate(other))
    paths = worked_lists.write(tmp_path, text)
    assert refusal(paths).lines == tuple(
        line(what, paths[0], number, column, value) for number, (column, value, what) in enumerate(other, 2))


@pytest.mark.parametrize("column, value, what", BAD_ENDS)
def test_each_bad_cell_of_an_end_system(tmp_path: Path, column: str, value: str, what: str) -> None:
    ends = "".join(f"{text},64,9\n" for text in worked_lists.ENDS.splitlines()[1:])
    paths = worked_lists.write(tmp_path, ends=",".join(END) + "\n" + ends + row(END, column, value))
    assert refusal(paths).lines == (line(what.format(ends=paths[1]), paths[1], 7, column, value),)


@pytest.mark.parametrize("column, value, what", BAD_WIRES)
def test_each_bad_cell_of_a_cable(tmp_path: Path, column: str, value: str, what: str) -> None:
    wires = "".join(f"{text},,\n" for text in worked_lists.WIRES.splitlines()[1:])
    paths = worked_lists.write(tmp_path, wires=",".join(WIRE) + "\n" + wires + row(WIRE, column, value))
    assert refusal(paths).lines == (
        line(what.format(ends=paths[1], wires=paths[2]), paths[2], 5, column, value),)


def test_bad_rows_of_all_lists_at_once(tmp_path: Path) -> None:
    links = worked_lists.LINKS.replace(",128,", ",3,").replace("13,local,A1,A2", "10,local,A1,A2")
    ends, wires = worked_lists.ENDS.replace("A,2,10", "A,1,10"), worked_lists.WIRES.replace(",50", ",-50")
    paths = worked_lists.write(tmp_path, links, ends, wires)
    assert refusal(paths).lines == (
        line("not one of 1, 2, 4, 8, 16, 32, 64, 128", paths[0], 4, "bag_ms", "3"),
        line(f"{paths[0]} line 2 has it too", paths[0], 5, "id", "10"),
        line(f"{paths[1]} line 2 has it too", paths[1], 3, "port", "1"),
        line("not a whole number", paths[2], 2, "delay_ns", "-50"))


def test_a_row_for_each_receiver(tmp_path: Path) -> None:
    """Checks that it is said of rows that differ in no other column that is read, and of no other rows, and that rows
    that differ in none may be of two networks."""
    links = ",".join([*GOOD, "remark"]) + "\n"
    changes: list[dict[str, str]] = [{}, {"to": "C1"}, {"to": "C2"}, {"to": "C1", "via": "C"}, {}]
    for change in changes:
        links += row(GOOD | change | {"remark": f"{len(links)}"})
    paths = worked_lists.write(tmp_path, links)
    all_in_one = ", with another to: all receivers have to stand in one row, with | between them"
    assert refusal(paths).lines == tuple(
        line(f"{paths[0]} line 2 has it too{more}", paths[0], number, "id", "20")
        for number, more in ((3, all_in_one), (4, all_in_one), (5, ""),
                             (6, ", the same in all that is read: networks A and B have lists of their own")))


def test_a_row_for_each_network_of_an_end_system(tmp_path: Path) -> None:
    paths = worked_lists.write(tmp_path, ends=worked_lists.ENDS + "A1,B,2,100\nA1,A,3,100\n")
    what = f"{paths[1]} line 2 has it too"
    assert refusal(paths).lines == (
        line(f"{what}, at another switch: networks A and B have lists of their own", paths[1], 7, "name", "A1"),
        line(what, paths[1], 8, "name", "A1"))


@pytest.mark.parametrize("cells, number, value", [("B,20,A,20,1000,50", 2, "B"), ("A,22,C,22,100,25", 4, "A")])
def test_a_row_for_each_direction_of_a_cable(tmp_path: Path, cells: str, number: int, value: str) -> None:
    paths = worked_lists.write(tmp_path, wires=worked_lists.WIRES + cells + "\n")
    what = f"{paths[2]} line {number} is the same cable: one row is for both directions"
    assert refusal(paths).lines == (line(what, paths[2], 5, "switch_a", value),)


def test_a_payload_of_another_size(tmp_path: Path) -> None:
    paths = worked_lists.write(tmp_path, worked_lists.LINKS.replace(",64,17,", ",65,17,"))
    assert refusal(paths).lines == (
        line("not the frame of the UDP payload, which has 64 bytes", paths[0], 5, "max_size", "65"),)


def test_a_cell_past_the_heading(tmp_path: Path) -> None:
    paths = worked_lists.write(tmp_path, ends=worked_lists.ENDS + "gyro,A,3,100,spare\n")
    assert refusal(paths).lines == (line("more cells than the heading has", paths[1], 7, "5", "spare"),)


def test_switches_that_no_cable_reaches(tmp_path: Path) -> None:
    wires = worked_lists.WIRES.splitlines(keepends=True)
    paths = worked_lists.write(tmp_path, wires=wires[0] + wires[1])
    assert refusal(paths).lines == (
        line("no cables lead from A to C", paths[0], 2, "to", "B1|C1"),
        line("no cables lead from B to C round the switches before it", paths[0], 3, "via", "B"),
        line("no cables lead from C to A", paths[0], 4, "to", "A2"))


LONE = "switch Bx has this cable alone and no end system: is its name right?"


def doubt(path: Path, number: int, column: str) -> str:
    return f'afdx-icd: warning: {LONE}, {path} line {number}, column {column}, value "Bx"'


ONCE, TWICE = "C,9,Bx,9,100,0\n", "Bx,10,A,9,100,0\n"


@pytest.mark.parametrize("wires, ends, places", [
    (ONCE, "", [("switch_b", 5)]), (TWICE, "", [("switch_a", 5)]), (ONCE + TWICE, "", []), (ONCE, "B2,Bx,1,100\n", [])])
def test_a_switch_that_one_cable_alone_names(
        tmp_path: Path, wires: str, ends: str, places: list[tuple[str, int]]) -> None:
    """Checks that a switch is warned of if one cable alone names it. Each switch has a table, and no link can cross
    this one; with two cables, or an end system, it may be right."""
    paths = worked_lists.write(tmp_path, ends=worked_lists.ENDS + ends, wires=worked_lists.WIRES + wires)
    complaints = Complaints()
    network.read(lists_of("afdx-icd", paths, mapping.read("afdx-icd", None), complaints))
    warned = [doubt(paths[2], number, column) for column, number in places]
    assert (complaints.warnings("afdx-icd"), complaints.found) == (warned, [])


def test_it_is_said_beside_what_is_refused(tmp_path: Path) -> None:
    wires = worked_lists.WIRES.replace("A,22,C,", "A,22,Bx,").replace("B,21,C,21,1000,", "A,19,B,19,1000,")
    paths = worked_lists.write(tmp_path, ",".join(GOOD) + "\n" + row(GOOD | {"to": "C1"}), wires=wires)
    assert refusal(paths).lines == (
        doubt(paths[2], 4, "switch_b"), line("no cables lead from A to C", paths[0], 2, "to", "C1"))


BAD_MAPPING = """\
rows = 1
[columns]
number = "VL"
id = 3
ends = "ES"
[defaults]
jitter_us = 20000
police = true
[defaults.wires]
mbit = "fast"
[switches]
latency_us = 101
least_latency_us = 5.5
constant = "00000000"
"""
BAD_KEYS = [
    "no such key, columns.number", "no such section, rows",
    "not 8 hexadecimal digits whose first byte has its two lowest bits set, switches.constant",
    "not a section, columns.ends", "not a text or a whole number, defaults.police",
    "not a text or a whole number, switches.least_latency_us", "not a text, columns.id",
    "not a whole number, defaults.wires.mbit",
    "not from 0 to 100, switches.latency_us", "not from 0 to 10000, defaults.jitter_us"]


def test_all_that_is_wrong_with_a_mapping_at_once(tmp_path: Path) -> None:
    path = tmp_path / "map.toml"
    path.write_text(BAD_MAPPING, encoding="utf-8")
    lines = refusal(worked_lists.write(tmp_path), "--mapping", str(path)).lines
    assert lines == tuple(f"afdx-icd: {what}, {path}" for what in BAD_KEYS)
    for text in ("[columns\n", "x = " + "[" * 5000, "[switches]\nlatency_us = " + "1" * 5000):
        path.write_text(text, encoding="utf-8")
        assert refusal(worked_lists.write(tmp_path), "--mapping", str(path)).lines[0].startswith("afdx-icd: not TOML: ")


@pytest.mark.parametrize("text, what", [
    ('[columns]\nid = "VL"\nbag_ms = "BAG"\njitter_us = " bag"',
     '"bag" is the heading of bag_ms too, columns.jitter_us'),
    ('[columns]\njitter_us = "bag_ms"', '"bag_ms" is the heading of bag_ms too, columns.jitter_us'),
    ('[columns.wires]\nport_a = "Port"\nport_b = "Port"', '"Port" is the heading of port_a too, columns.wires.port_b')])
def test_one_heading_of_two_columns(tmp_path: Path, text: str, what: str) -> None:
    path = tmp_path / "map.toml"
    path.write_text(text, encoding="utf-8")
    assert refusal(worked_lists.write(tmp_path), "--mapping", str(path)).lines == (f"afdx-icd: {what}, {path}",)


def test_headings_that_change_places_and_columns_that_are_none(tmp_path: Path) -> None:
    """Checks that the key of a column may be the heading of another if the mapping says what its own is."""
    path = tmp_path / "map.toml"
    path.write_text('[columns]\nfrom = "to"\nto = "from"\nvia = ""\npolice = ""\n', encoding="utf-8")
    assert mapping.read("afdx-icd", path).links.headings["from"] == "to"


def test_other_numbers_may_begin_with_zeros(tmp_path: Path) -> None:
    """Checks that they are decimal: they may have been written with as many digits each."""
    links, ends = worked_lists.LINKS.replace(",2,40,200,", ",002,0040,0200,"), worked_lists.ENDS.replace("B,1", "B,01")
    net = network.read(lists_of("afdx-icd", worked_lists.write(tmp_path, links, ends),
                                mapping.read("afdx-icd", None), Complaints()))
    first = net.links[0]
    assert (first.bag_ms, first.jitter_us, first.max_size, net.ends["B1"].number) == (2, 40, 200, 1)


def test_a_list_of_links_that_has_none_is_warned_of(tmp_path: Path) -> None:
    paths = worked_lists.write(tmp_path, "\n" + worked_lists.LINKS.splitlines()[0] + "\n,,,\n")
    complaints = Complaints()
    network.read(lists_of("afdx-icd", paths, mapping.read("afdx-icd", None), complaints))
    assert complaints.warnings("afdx-icd") == [
        f"afdx-icd: warning: no links: the list is its headings alone, {paths[0]} line 2"] and not complaints.found


NONE_OF_LINKS = "none of the headings id, from, to, bag_ms, jitter_us, priority: "
ASKED = "is there a title above them, or has the mapping to name them?"
NOTE = "no more than two cells of this row are filled: if it is a note, it has to go"


def test_switches_that_differ_in_capital_letters(tmp_path: Path) -> None:
    """Checks that each other cell is named, and of cables both."""
    ends = worked_lists.ENDS.replace("C1,C,", "C1,c,").replace("C2,C,", "C2,c,")
    wires = worked_lists.WIRES.replace("B,20", "b,20").replace("A,22", "a,22")
    paths = worked_lists.write(tmp_path, ends=ends, wires=wires)
    what = "another switch is called {}: capital letters have to be the same"
    assert refusal(paths).lines == (
        line(what.format("B"), paths[2], 2, "switch_b", "b"), line(what.format("c"), paths[2], 3, "switch_b", "C"),
        line(what.format("A"), paths[2], 4, "switch_a", "a"), line(what.format("c"), paths[2], 4, "switch_b", "C"))


@pytest.mark.parametrize("order", [1, 2])
def test_ports_of_which_some_have_no_buffer(tmp_path: Path, order: int) -> None:
    """Checks that what stands for an empty cell is not taken without a word, but where the list or the mapping says it
    of all."""
    lists = [worked_lists.LINKS, worked_lists.ENDS, worked_lists.WIRES]
    first, second, *others = lists[order].splitlines()
    path, warned = tmp_path / "map.toml", "empty, though others of this column are not: 16777216 counts here"
    for texts, default, warnings in (((",5000,9", ",,9"), "", 1), ((",,", ",,"), "", 0),
                                     ((",5000,9", ",,9"), "buffer = 64", 0)):
        rows = [f"{first},buffer,max_delay_us", f"{second}{texts[0]}", *(f"{row}{texts[1]}" for row in others)]
        lists[order] = "\n".join(rows)
        path.write_text(f"[defaults.{('ends', 'wires')[order - 1]}]\n{default}\n", encoding="utf-8")
        paths, complaints = worked_lists.write(tmp_path, *lists), Complaints()
        network.read(lists_of("afdx-icd", paths, mapping.read("afdx-icd", path), complaints))
        assert not complaints.found and complaints.warnings("afdx-icd") == [
            line(f"warning: {warned}", paths[order], 3, "buffer", "")] * warnings


def test_a_title_above_the_headings_and_another_list(tmp_path: Path) -> None:
    paths = worked_lists.write(tmp_path, "ICD of police delays,rev C\n" + worked_lists.LINKS)
    assert refusal(paths).lines == (f"afdx-icd: {NONE_OF_LINKS}{ASKED}, {paths[0]} line 1",)


def test_the_sheet_is_named_if_it_is_not_the_only_one(tmp_path: Path) -> None:
    paths = worked_lists.write(tmp_path)
    paths[0] = tmp_path / "icd.xlsx"
    book = openpyxl.Workbook()
    cover, links = book.active, book.create_sheet("VL")
    cover.title = 'the "Cover"'
    for cells in (list(GOOD), [*GOOD.values()], [*(GOOD | {"bag_ms": "3"}).values()]):
        links.append(cells)
    book.save(paths[0])
    sheet = f'{paths[0]} sheet "the \\"Cover\\""'
    assert refusal(paths).lines == (f"afdx-icd: no heading, {sheet}",)
    cover["B2"] = "ICD rev C"
    book.save(paths[0])
    what = f"{NONE_OF_LINKS}is the list on another sheet, {ASKED}"
    assert refusal(paths).lines == (f"afdx-icd: {what}, {sheet} line 2",)
    book.move_sheet("VL", -1)
    book.save(paths[0])
    place = f'{paths[0]} sheet "VL" line'
    assert refusal(paths).lines == (
        f'afdx-icd: {place} 2 has it too, {place} 3, column id, value "20"',
        f'afdx-icd: not one of 1, 2, 4, 8, 16, 32, 64, 128, {place} 3, column bag_ms, value "3"')


@pytest.mark.parametrize("headings, above, state, is_told", [
    (list(GOOD), 0, "visible", True), (list(GOOD), 0, "hidden", False), (list(GOOD), 19, "visible", True),
    (list(GOOD), 20, "visible", False), (["id", "name", "from", "to", "offset"], 0, "visible", False),
    (["VIA", "police", "priority", " Max_size", "bag_ms\n", "id"], 3, "visible", True),
    (["rev", "date", "name"], 0, "visible", False)])
def test_a_sheet_in_which_the_list_may_go_on(
        tmp_path: Path, headings: list[str], above: int, state: str, is_told: bool) -> None:
    """Checks that a sheet beside the list is told of if one of its first rows has most of the headings."""
    paths = worked_lists.write(tmp_path)
    paths[0] = tmp_path / "icd.xlsx"
    book = openpyxl.Workbook()
    book.create_sheet("part 2").sheet_state = state
    for _ in range(above):
        book["part 2"].append(["ICD rev C"])
    for sheet, cells in ((book.active, list(GOOD)), (book.active, list(GOOD.values())), (book["part 2"], headings),
                         (book["part 2"], list((GOOD | {"id": "21"}).values()))):
        sheet.append(cells)
    book.save(paths[0])
    complaints = Complaints()
    read = network.read(lists_of("afdx-icd", paths, mapping.read("afdx-icd", None), complaints))
    what = "not read, with headings as the first visible sheet has: if the rows of this one count"
    assert complaints.warnings("afdx-icd") == [
        f'afdx-icd: warning: {what}, they have to be there, {paths[0]} sheet "part 2" line {above + 1}'] * is_told
    assert [link.id for link in read.links] == [20] and not complaints.found


def test_a_note_under_a_list_has_one_line(tmp_path: Path) -> None:
    """Checks that a row with few cells of which one is bad still says which."""
    paths = worked_lists.write(tmp_path, worked_lists.LINKS + "Note 1:,,,,,,,all jitters at the sender\n",
                               worked_lists.ENDS + "gyro,A,,\n", worked_lists.WIRES + ",,,,,,* spare\n")
    assert refusal(paths).lines == (
        line(NOTE, paths[0], 6, "1", "Note 1:"), line(NOTE, paths[1], 7, "1", "gyro"),
        line(NOTE, paths[2], 5, "7", "* spare"))
    paths = worked_lists.write(tmp_path, ends=worked_lists.ENDS + "gyro,A,1\n")
    path = tmp_path / "map.toml"
    path.write_text("[defaults.ends]\nmbit = 100\nswitch = \"A\"\n", encoding="utf-8")
    for row, number in (("gyro,,1", "1"), ("gyro,A,25", "25")):
        paths = worked_lists.write(tmp_path, ends=worked_lists.ENDS + f"{row},\n")
        what = f"{paths[1]} line 2 has it too" if number == "1" else "not from 1 to 24"
        assert refusal(paths, "--mapping", str(path)).lines == (line(what, paths[1], 7, "port", number),)


def test_a_row_of_units_or_headings_has_one_line(tmp_path: Path) -> None:
    """Checks that a row with one thing wrong says which, and so do errors of the spreadsheet."""
    units = "-,-,ES,ES,ms,us,byte,byte,H/L,,\n"
    heading, rest = worked_lists.LINKS.split("\n", 1)
    paths = worked_lists.write(tmp_path, f"{heading}\n{units}{rest}{heading}\n", worked_lists.ENDS + "gyro,A,#N/A,x\n",
                               worked_lists.WIRES + "A,3,B,b,100,0\n")
    what = "no number in this row: if it has units or headings, it has to go"
    assert refusal(paths).lines == (
        line(what, paths[0], 2, "1", "-"), line(what, paths[0], 7, "1", "id"), line(ERROR, paths[1], 7, "port", "#N/A"),
        line("not a whole number", paths[1], 7, "mbit", "x"), line("not a whole number", paths[2], 5, "port_b", "b"))


def test_a_row_of_few_texts_is_no_note(tmp_path: Path) -> None:
    paths = worked_lists.write(tmp_path, ends=worked_lists.ENDS + "1,A,1,\n")
    assert refusal(paths).lines == (
        line(f"{paths[1]} line 2 has it too", paths[1], 7, "port", "1"), line("empty", paths[1], 7, "mbit", ""))


def test_a_note_in_merged_cells_has_one_line(tmp_path: Path) -> None:
    paths = worked_lists.write(tmp_path)
    paths[0] = tmp_path / "icd.xlsx"
    book = openpyxl.Workbook()
    for cells in (list(GOOD), [*GOOD.values()], ["Note: all"]):
        book.active.append(cells)
    book.active.merge_cells("A3:K3")
    book.save(paths[0])
    assert refusal(paths).lines == (line(NOTE, paths[0], 3, "1", "Note: all"),)


def test_what_is_struck_through_is_warned_of(tmp_path: Path) -> None:
    """Checks the first cell of such a row that is read, and columns whose headings are struck; others do not count."""
    paths = worked_lists.write(tmp_path)
    paths[0] = tmp_path / "icd.xlsx"
    book = openpyxl.Workbook()
    for cells in ([*GOOD, "remark"], [*GOOD.values(), "old"], [*(GOOD | {"id": 21, "via": "A"}).values(), "old"]):
        book.active.append(cells)
    for place in ("L2", "E3", "F3", "L3", "L1", "H1", "H2"):
        book.active[place].font = Font(strike=True)
    book.save(paths[0])
    complaints = Complaints()
    network.read(lists_of("afdx-icd", paths, mapping.read("afdx-icd", None), complaints))
    what = "warning: struck through, and read all the same: if this {} does not count, it has to go"
    assert complaints.warnings("afdx-icd") == [
        f"afdx-icd: {what.format('column')}, {paths[0]} line 1, column {list(GOOD)[7]}",
        line(what.format("row"), paths[0], 3, "5", "8")] and not complaints.found


def test_missing_columns_of_all_lists_at_once(tmp_path: Path) -> None:
    links = worked_lists.LINKS.replace("max_size", "size").replace("udp_payload", "payload").replace("police", "via")
    paths = worked_lists.write(tmp_path, links, worked_lists.ENDS.replace("mbit", "speed"),
                               worked_lists.WIRES.replace("port_a", "a").replace("port_b", "b"))
    lacking = "no such column: the mapping has to name it"
    places = [("no such column, and no udp_payload either: the mapping has to name one", 0, "max_size"),
              ("two columns of this name", 0, "via"), (lacking, 1, "mbit"), (lacking, 2, "port_a"),
              (lacking, 2, "port_b")]
    assert refusal(paths).lines == tuple(
        f"afdx-icd: {what}, {paths[order]} line 1, column {column}" for what, order, column in places)


def test_other_headings_of_columns_that_have_to_be_there(tmp_path: Path) -> None:
    """Checks that the heading that may be meant is named, also of a column that the mapping names wrongly."""
    links = worked_lists.LINKS.replace("bag_ms", "BAG [ms]").replace("jitter_us", "Jitter")
    paths, path = worked_lists.write(tmp_path, links), tmp_path / "map.toml"
    meant = "no such column, {} may be it: the mapping has to name it"
    bag = f"afdx-icd: {meant.format(chr(34) + 'BAG [ms]' + chr(34))}, {paths[0]} line 1, column bag_ms"
    jitter = f"afdx-icd: {meant.format(chr(34) + 'Jitter' + chr(34))}, {paths[0]} line 1, column jitter_us"
    assert refusal(paths).lines == (bag, jitter)
    path.write_text('[columns]\nbag_ms = "BAG"\n', encoding="utf-8")
    assert set(refusal(paths, "--mapping", str(path)).lines) == {
        jitter, f'afdx-icd: no such column, "BAG [ms]" may be it, {paths[0]} line 1, column BAG'}


@pytest.mark.parametrize("order, column, heading", [
    (0, "police", "Police\n[byte/frame]"), (0, "police", "police mode"), (0, "police", "policing"), (0, "via", "Route"),
    (2, "delay_ns", "delay [ns]"), (2, "delay_ns", "delay\nns"), (2, "delay_ns", "DELAY-ns"), (2, "delay_ns", "delay"),
    (2, "delay_ns", "delay_ns/ns"), (2, "delay_ns", "delay_ns*"), (2, "delay_ns", "DelayNs"), (2, "delay_ns", "delays"),
    (0, "police", "Policer"), (0, "police", "PoliceMode"), (0, "police", "policed by"), (0, "police", "POLICY"),
    (2, "delay_ns", "Cable delay [ns]"), (2, "delay_ns", "cable delays"), (2, "delay_ns", "CableDelayNs"),
    (2, "delay_ns", "CABLEDELAY [ns]"), (0, "police", "no police"), (0, "police", "Link policing"),
    (0, "via", "remark to via"), (0, "via", "VL route"),
    (0, "via", "Vias"), (0, "via", "viaSwitches"), (0, "via", "VIA1"), (0, "via", "routes"), (0, "via", "Routing")])
def test_another_heading_of_a_column_that_may_be_missing(tmp_path: Path, order: int, column: str, heading: str) -> None:
    """Checks that the mapping has to name such a column, or to say that there is none: without it all links would be
    policed by bytes, all cables without delay."""
    lists = [worked_lists.LINKS, worked_lists.ENDS, worked_lists.WIRES]
    lists[order] = lists[order].replace(column, f'"{heading}"')
    paths, path = worked_lists.write(tmp_path, *lists), tmp_path / "map.toml"
    shown = " ".join(heading.split())
    what = f'"{shown}" may be this column: the mapping has to name it, or "" for none'
    assert refusal(paths).lines == (f"afdx-icd: {what}, {paths[order]} line 1, column {column}",)
    for says in (shown, ""):
        path.write_text(f'[columns{".wires" if order else ""}]\n{column} = "{says}"\n', encoding="utf-8")
        complaints = Complaints()
        found = lists_of("afdx-icd", paths, mapping.read("afdx-icd", path), complaints)
        assert (column in found[order].places) == (says != "")


@pytest.mark.parametrize("order, section", [(1, "ends"), (2, "wires")])
@pytest.mark.parametrize("column, heading", [
    ("buffer", "Buffers [byte]"), ("buffer", "BufferSize"), ("buffer", "Buffering"), ("buffer", "buffer-size"),
    ("max_delay_us", "MaxDelay"), ("max_delay_us", "max delay us"), ("max_delay_us", "Max. delay (us)"),
    ("max_delay_us", "Maximum delay"), ("buffer", "Port buffer [byte]"), ("buffer", "TxBuffer"), ("buffer", "Buf."),
    ("buffer", "TXBUF [byte]"), ("buffer", "TxBufferSize"), ("buffer", "Buf-\nfers"), ("max_delay_us", "Delay max"),
    ("max_delay_us", "Delay, maximum [us]"), ("max_delay_us", "PortMaxDelay"), ("max_delay_us", "PORTMAXDELAY")])
def test_another_heading_of_what_ports_have(tmp_path: Path, order: int, section: str, column: str,
                                            heading: str) -> None:
    """Checks that the buffer and the greatest delay that stand for missing columns are not taken without a word, and
    are if the mapping says so."""
    lists = [worked_lists.LINKS, worked_lists.ENDS, worked_lists.WIRES]
    first, *rows = lists[order].splitlines()
    lists[order] = "\n".join([f'{first},"{heading}"', *(f"{row},1000" for row in rows)])
    paths, path = worked_lists.write(tmp_path, *lists), tmp_path / "map.toml"
    what = f'"{" ".join(heading.split())}" may be this column: the mapping has to name it, or "" for none'
    assert refusal(paths).lines == (f"afdx-icd: {what}, {paths[order]} line 1, column {column}",)
    path.write_text(f'[columns.{section}]\n{column} = ""\n', encoding="utf-8")
    found = lists_of("afdx-icd", paths, mapping.read("afdx-icd", path), Complaints())
    assert column not in found[order].places


@pytest.mark.parametrize("column, heading, default", [
    ("jitter_us", "Jitters", "0"), ("priority", "Prio", '"low"'), ("priority", "VL PRIO", '"low"')])
def test_a_column_that_a_default_stands_for_is_not_passed_over(tmp_path: Path, column: str, heading: str,
                                                               default: str) -> None:
    """Checks that it is one that may be missing: its heading too has to begin with no more than the same letters."""
    paths = worked_lists.write(tmp_path, worked_lists.LINKS.replace(column, heading))
    path = tmp_path / "map.toml"
    path.write_text(f"[defaults]\n{column} = {default}\n", encoding="utf-8")
    what = f'"{heading}" may be this column: the mapping has to name it, or "" for none'
    assert refusal(paths, "--mapping", str(path)).lines == (
        f"afdx-icd: {what}, {paths[0]} line 1, column {column}",)


def test_no_likely_heading_of_a_column_that_has_to_be_there(tmp_path: Path) -> None:
    """Checks that words are compared there: `total` is no `to`."""
    heading = worked_lists.LINKS.splitlines()[0].replace(",to,", ",total,")
    paths = worked_lists.write(tmp_path, worked_lists.LINKS.replace(worked_lists.LINKS.splitlines()[0], heading))
    assert refusal(paths).lines == (
        f"afdx-icd: no such column: the mapping has to name it, {paths[0]} line 1, column to",)


@pytest.mark.parametrize("heading", [
    "remark", "Remarks", "comment", "description", "status", "ICD rev", "partition", "abbreviation",
    "throughput", "deviation", "latency",
    "cable length",
    "UDP port", "max. rate", "maximum rate", "sub-VL", "network", "period", "rate", "owner", "ATA", "ROM", "pol."])
def test_headings_of_other_meanings(tmp_path: Path, heading: str) -> None:
    """Checks that columns that lists have beside those that are read stay there without a mapping."""
    lists = [worked_lists.LINKS.replace("police", heading).replace(",via", ",note"),
             worked_lists.ENDS.replace("mbit", f"mbit,{heading}").replace("0\n", "0,x\n"),
             worked_lists.WIRES.replace("delay_ns", heading)]
    paths = worked_lists.write(tmp_path, *lists)
    complaints = Complaints()
    lists_of("afdx-icd", paths, mapping.read("afdx-icd", None), complaints)
    assert not complaints.found


def test_another_unit_of_columns_that_the_mapping_does_not_name(tmp_path: Path) -> None:
    """Checks that it is said before the mapping names them."""
    paths = worked_lists.write(tmp_path, worked_lists.LINKS.replace("jitter_us", "jitter_ms"),
                               wires=worked_lists.WIRES.replace("delay_ns", "Delay [us]"))
    what = "its values have to be in {}, and the mapping has to name it"
    assert refusal(paths).lines == (
        f'afdx-icd: no such column, "jitter_ms" may be it: {what.format("us")}, {paths[0]} line 1, column jitter_us',
        f'afdx-icd: "Delay [us]" may be this column: {what.format("ns")}, or "" for none, {paths[2]} line 1, '
        "column delay_ns")


@pytest.mark.parametrize("order, column, heading, word, unit", [
    (0, "jitter_us", "Jitter [ms]", "ms", "in us"), (0, "jitter_us", "JITTER_MS", "ms", "in us"),
    (0, "bag_ms", "Rate (Hz)", "hz", "in ms"), (0, "bag_ms", "BAG/\u00b5s", "\u03bcs", "in ms"),
    (0, "id", "VL (hex)", "hex", "decimal"), (0, "max_size", "Max payload", "payload", "the whole frame"),
    (0, "udp_payload", "Lmax", "lmax", "the UDP payload"), (1, "buffer", "Buffer, KiB", "kib", "in bytes"),
    (1, "buffer", "Buffer kByte", "kbyte", "in bytes"),
    (1, "max_delay_us", "MaxDelayMs", "ms", "in us"), (2, "delay_ns", "Cable\ndelay us", "us", "in ns")])
def test_headings_with_another_unit(tmp_path: Path, order: int, column: str, heading: str, word: str,
                                    unit: str) -> None:
    """Checks that the mapping does not make such values those of the column, and may name a heading that says both."""
    lists = [worked_lists.LINKS, worked_lists.ENDS.replace("mbit", "mbit,buffer,max_delay_us"), worked_lists.WIRES]
    section, path = ("", ".ends", ".wires")[order], tmp_path / "map.toml"
    for text, refused in ((heading, True), (f"{heading} ({unit.replace('whole ', '')})", False)):
        shown = " ".join(text.split())
        path.write_text(f'[columns{section}]\n{column} = "{shown}"\n', encoding="utf-8")
        paths = worked_lists.write(tmp_path, *(own.replace(column, f'"{text}"') if at == order else own
                                               for at, own in enumerate(lists)))
        complaints = Complaints()
        if not refused:
            assert column in lists_of("afdx-icd", paths, mapping.read("afdx-icd", path), complaints)[order].places
            continue
        what = f'"{word}" in its heading: the values of {column} have to be {unit}'
        assert refusal(paths, "--mapping", str(path)).lines == (
            f"afdx-icd: {what}, {paths[order]} line 1, column {shown}",)


def test_cells_below_empty_headings(tmp_path: Path) -> None:
    """Checks that receivers right of those that are read are not passed over, in a .csv as in a merged heading's, and
    that cells beside other columns are none of them."""
    links = worked_lists.LINKS.replace(",to,", ",to,,,").replace(",B1|C1,", ",B1,,C1,").replace('"C1, C2",', "C1,C2,,")
    links = links.replace(",C2,A2,", ",C2,A2,,,").replace(",A1,A2,", ",A1,A2,,,")
    paths = worked_lists.write(tmp_path, links + "Note 1,,,,see below,,,,,,,,\n")
    bare = "no heading above this cell: its column has to have one, or to go"
    assert refusal(paths).lines == (
        line(bare, paths[0], 2, "6", "C1"), line(bare, paths[0], 3, "5", "C2"), line(NOTE, paths[0], 6, "1", "Note 1"))
    ends = "".join(f",{at},{text},x,y\n" for at, text in enumerate(worked_lists.ENDS.splitlines()[1:]))
    paths = worked_lists.write(tmp_path, ends=",,name,switch,port,mbit,note,\n" + ends)
    complaints = Complaints()
    network.read(lists_of("afdx-icd", paths, mapping.read("afdx-icd", None), complaints))
    assert not complaints.found


def test_receivers_in_rows_of_their_own(tmp_path: Path) -> None:
    """Checks that a row of receivers alone is not called a note."""
    links = worked_lists.LINKS.replace("B1|C1", "B1").replace("11,", ",,,C1,,,,,,,\n11,", 1)
    links = links.replace("12,", '11,,,"B1, C2",,,,,,,\n12,', 1)
    paths = worked_lists.write(tmp_path, links + ",,,later,,,,,,,\n")
    what = "receivers without a sender: all of a link have to stand in its row, with | between them"
    assert refusal(paths).lines == (
        line(what, paths[0], 3, "4", "C1"), line(what, paths[0], 5, "1", "11"), line(NOTE, paths[0], 8, "4", "later"))


@pytest.mark.parametrize("between, is_told", [
    ("; ", True), ("/", True), (" and ", True), (" + ", True), ("\n", True), (" ", False), (" und ", False)])
def test_other_separators_of_receivers(tmp_path: Path, between: str, is_told: bool) -> None:
    paths = worked_lists.write(tmp_path, worked_lists.LINKS.replace("B1|C1", f'"B1{between}C1"'))
    hint = ": receivers have | or , between them" * is_told
    shown, value = " ".join(f"B1{between}C1".split()), f"B1{between}C1".replace("\n", "\\n")
    assert refusal(paths).lines == (line(f"no such end system as {shown}{hint}", paths[0], 2, "to", value),)


def test_headings_that_are_no_column(tmp_path: Path) -> None:
    """Checks that a name beside the numbers of links may be called as it likes, and that half of a name is none."""
    heading = "id,name (long),from,to,bag_ms,jitter_us,max_size,payload,priority,pol,by way of"
    paths = worked_lists.write(tmp_path, worked_lists.LINKS.replace(worked_lists.LINKS.splitlines()[0], heading))
    found = lists_of("afdx-icd", paths, mapping.read("afdx-icd", None), Complaints())
    assert {"name", "udp_payload", "police", "via"}.isdisjoint(found[0].places)


def test_formulas_whose_values_were_not_saved(tmp_path: Path) -> None:
    paths = worked_lists.write(tmp_path)
    book = openpyxl.Workbook()
    book.active.append([*list(GOOD)[:-1], "=K2"])
    book.active.append([*list((GOOD | {"police": "=H2"}).values())[:-1], "A"])
    paths[0] = tmp_path / "icd.xlsx"
    book.save(paths[0])
    assert refusal(paths).lines == (line("a formula whose value was not saved with it", paths[0], 1, "11", "=K2"),)
    book.active["K1"] = "via"
    book.save(paths[0])
    assert refusal(paths).lines == (line("a formula whose value was not saved with it", paths[0], 2, "police", "=H2"),)


ERROR = "an error of the spreadsheet in place of a value: it has to be mended there"


@pytest.mark.parametrize("text", ["#N/A", "#REF!", "#NAME?", "#VALUE!", "#DIV/0!", "#NV", "#BEZUG!", "#\u00a1VALOR!",
                                  "#N/D", "Err:502"])
def test_errors_of_a_spreadsheet_in_a_csv(tmp_path: Path, text: str) -> None:
    """Checks that no end system gets such a name, and that a row of them is no note."""
    paths = worked_lists.write(tmp_path, worked_lists.LINKS.replace("A1,A2", f"{text},A2"),
                               worked_lists.ENDS + ",".join([text] * 4) + "\n")
    assert refusal(paths).lines == (line(ERROR, paths[0], 5, "from", text), *(
        line(ERROR, paths[1], 7, column, text) for column in worked_lists.ENDS.splitlines()[0].split(",")))
    paths = worked_lists.write(tmp_path, worked_lists.LINKS.replace("via", text))
    assert refusal(paths).lines == (line(ERROR, paths[0], 1, "11", text),)


@pytest.mark.parametrize("name", ["#1", "#1/2", "No. #4", "#A", "Err", "NV", "N/A"])
def test_names_that_are_no_errors(tmp_path: Path, name: str) -> None:
    lists = [text.replace("A2", name) for text in (worked_lists.LINKS, worked_lists.ENDS)]
    complaints = Complaints()
    read = network.read(lists_of("afdx-icd", worked_lists.write(tmp_path, *lists), mapping.read("afdx-icd", None),
                                 complaints))
    assert name in read.ends and not complaints.found


def test_names_with_accents_of_their_own_and_signs_that_cannot_be_seen(tmp_path: Path) -> None:
    """Checks that a name is the same however its accent is kept, and that what cannot be seen has an escape."""
    lists = [worked_lists.LINKS.replace("A2", "Se\u0301lecteur"), worked_lists.ENDS.replace("A2", "S\u00e9lecteur")]
    complaints = Complaints()
    read = network.read(lists_of("afdx-icd", worked_lists.write(tmp_path, *lists), mapping.read("afdx-icd", None),
                                 complaints))
    assert "S\u00e9lecteur" in read.ends and not complaints.found
    paths = worked_lists.write(tmp_path, "\ufeff\ufeff" + worked_lists.LINKS.replace(",A2,", ",A2\u200b,"))
    what = 'no such column, "\\ufeffid" may be it: the mapping has to name it'
    assert refusal(paths).lines == (f"afdx-icd: {what}, {paths[0]} line 1, column id",)
    paths = worked_lists.write(tmp_path, worked_lists.LINKS.replace(",A2,", ",A2\u200b,"))
    what = "has a character that cannot be printed"
    assert refusal(paths).lines == (line(what, paths[0], 4, "to", "A2\\u200b"),
                                    line(what, paths[0], 5, "to", "A2\\u200b"))


def test_errors_in_a_workbook(tmp_path: Path) -> None:
    """Checks a lookup that failed in several rows; of a column that is not read none counts."""
    paths = worked_lists.write(tmp_path)
    paths[0] = tmp_path / "icd.xlsx"
    book = openpyxl.Workbook()
    for cells in ([*GOOD, "remark"], [*(GOOD | {"from": "#N/A"}).values(), "#REF!"],
                  [*(GOOD | {"id": 21, "to": "#N/A"}).values()], [*(GOOD | {"id": 22, "via": "#SPILL!"}).values()]):
        book.active.append(cells)
    book.active["K4"].data_type = "e"
    book.active["C2"].font = Font(strike=True)
    book.save(paths[0])
    assert refusal(paths).lines == tuple(line(ERROR, paths[0], *place) for place in (
        (2, "from", "#N/A"), (3, "to", "#N/A"), (4, "via", "#SPILL!")))
