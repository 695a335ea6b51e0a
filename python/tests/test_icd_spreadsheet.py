"""Spreadsheets as they come."""
import csv
import io
import zipfile
from pathlib import Path

import openpyxl
import pytest
from hypothesis import given, strategies
from openpyxl.styles import Font

from afdx.failure import INPUT, Failure
from afdx.icd import spreadsheet
from afdx.icd.spreadsheet import Error, Formula, Row, Struck

PRINTABLE = strategies.characters(blacklist_categories=("Cs", "Cc"))
CELLS = strategies.text(PRINTABLE | strategies.sampled_from(',;"\n'))


def read(path: Path, text: bytes) -> list[Row]:
    path.write_bytes(text)
    sheet = spreadsheet.read("command", path)
    return [sheet.heading, *sheet.rows]


def workbook(rows: list[list[object]], *merged: str) -> bytes:
    """Returns a workbook of these rows, in which these ranges are merged."""
    book, text = openpyxl.Workbook(), io.BytesIO()
    for row in rows:
        book.active.append(row)
    for cells in merged:
        book.active.merge_cells(cells)
    book.save(text)
    return text.getvalue()


def changed(book: bytes, part: str, texts: dict[bytes, bytes]) -> bytes:
    """Returns a workbook in one part of which each of these texts, which has to be there, is another."""
    source, text = zipfile.ZipFile(io.BytesIO(book)), io.BytesIO()
    with zipfile.ZipFile(text, "w") as made:
        for name in source.namelist():
            kept = source.read(name)
            for old, new in texts.items() if name == part else ():
                assert old in kept
                kept = kept.replace(old, new)
            made.writestr(name, kept)
    return text.getvalue()


@pytest.mark.parametrize("text", [
    b"id,to\n1,A\n", b"id;to\n1;A\n", b"id\tto\r\n1\tA\r\n", b"\xef\xbb\xbfid;to\n1 ; A", b'"id","to"\n"1","A"\n',
    b'"id"\t"to"\r\n"1"\t"A"\r\n'])
def test_separators_and_line_ends(tmp_path: Path, text: bytes) -> None:
    assert read(tmp_path / "list.csv", text) == [Row(1, ["id", "to"]), Row(2, ["1", "A"])]


@pytest.mark.parametrize("text, headings", [
    (b'"VL\nid";to', ["VL\nid", "to"]), (b'\r\n"VL,\r\nid,,";to', ["VL,\r\nid,,", "to"]),
    (b'id;"to\n,"', ["id", "to\n,"]), (b'id;"to, via, and so on"', ["id", "to, via, and so on"]),
    (b'"a ""new"", longer, id";to', ['a "new", longer, id', "to"]), (b'id;19"', ["id", '19"']),
    (b'19";to', ['19"', "to"]), (b'id;"to""\n,,"', ["id", 'to"\n,,'])])
def test_what_is_within_quotes_in_headings_does_not_separate(tmp_path: Path, text: bytes, headings: list[str]) -> None:
    """Checks that an inch does not begin what is within quotes; the same list with tabs is read so too."""
    for separator in (b";", b"\t"):
        rows = read(tmp_path / "list.csv", (text + b"\n1;A\n").replace(b";", separator))
        assert [row.cells for row in rows] == [headings, ["1", "A"]]


@pytest.mark.parametrize("rows, cells", [
    ("VL, as a number;to, all of them, in order\n1;A\n2;B,C,D", 2), ("id;to\n1;A,B\n\n2;C,D\n3;E,F\nNote", 2),
    ("id,to\n1;A,B", 2), ("id;to, and\n1;A,B\n2;C,D", 2), ('id;to\n"1, 2";A\n"3";B', 2), ("id,to;\nA", 2)])
def test_what_all_rows_have_as_often_separates(tmp_path: Path, rows: str, cells: int) -> None:
    """Checks that it counts before what the headings have most of, if it is but one separator."""
    assert len(read(tmp_path / "list.csv", rows.encode())[0].cells) == cells


@pytest.mark.parametrize("text, is_refused", [
    ('id,name,from,to\n1,"a,A,B\n2,b,A,C\n3,c",A,D\n', True), ('\nid;name;from;to\n"1;a;A;B\n2";b;A;C\n', True),
    ('id,name,from,to\r\n1,a,A,"B\r\n2,b,A,C"\r\n', True), ('id,name,from,to\n1,"a, b,\nc, d",A,B\n', False),
    ('id,name,from,to\n1,"a,\nb\nc",A,B\n', False), ('id,to\n1,"A\nB,C"\n', False)])
def test_rows_between_quotes_of_which_others_are_missing(tmp_path: Path, text: str, is_refused: bool) -> None:
    """Checks that rows that would be one cell are not left out without a word, and that cells may have line feeds."""
    if not is_refused:
        assert len(read(tmp_path / "list.csv", text.encode())) == 2
        return
    with pytest.raises(Failure) as ended:
        read(tmp_path / "list.csv", text.encode())
    what, number = "whole rows within quotes, line {}: one may be missing", 3 if text.startswith("\n") else 2
    assert ended.value.lines == (f"command: not separated values: {what.format(number)}, {tmp_path}/list.csv",)


def test_a_first_line_that_says_the_separator(tmp_path: Path) -> None:
    rows = read(tmp_path / "list.csv", b'\xef\xbb\xbfsep=;\r\nid,a,b;to\r\n1;A\r\n')
    assert rows == [Row(2, ["id,a,b", "to"]), Row(3, ["1", "A"])]


def test_a_row_is_of_the_line_where_it_begins(tmp_path: Path) -> None:
    rows = read(tmp_path / "list.csv", b'\nid,to\n\n1,"A,\nB"\n,,\n2,C\n')
    assert rows == [Row(2, ["id", "to"]), Row(4, ["1", "A,\nB"]), Row(7, ["2", "C"])]


def test_a_workbook_reads_as_the_same_list(tmp_path: Path) -> None:
    text = workbook([["id", "to", "bag_ms"], [1, "A ", 8.0], [], [2, None, 0.5]])
    assert read(tmp_path / "list.xlsx", text) == [
        Row(1, ["id", "to", "bag_ms"]), Row(2, ["1", "A", "8"]), Row(4, ["2", "", "0.5"])]


@pytest.mark.parametrize("said", [b"A1", b"A1:B2", b"A1:C9", b"A1:I8", b"B2:C3"])
def test_a_workbook_is_read_whole_whatever_size_it_says(tmp_path: Path, said: bytes) -> None:
    rows: list[list[object]] = [["id", "to", "police"], [1, "A", "byte"], [2, "B", "frame"]]
    text = changed(workbook(rows), "xl/worksheets/sheet1.xml", {b'ref="A1:C3"': b'ref="' + said + b'"'})
    assert read(tmp_path / "list.xlsx", text) == [
        Row(1, ["id", "to", "police"]), Row(2, ["1", "A", "byte"]), Row(3, ["2", "B", "frame"])]


@pytest.mark.parametrize("state", ["hidden", "veryHidden"])
def test_the_first_visible_sheet_is_read_with_its_hidden_rows_and_columns(tmp_path: Path, state: str) -> None:
    book, text = openpyxl.Workbook(), io.BytesIO()
    for title, name in (("Sheet", "old"), ("new", "A"), ("later", "B")):
        sheet = book[title] if title in book else book.create_sheet(title)
        for row in (["id", "to"], [1, name], [2, name]):
            sheet.append(row)
    book["Sheet"].sheet_state, book.active = state, 1
    book["new"].row_dimensions[2].hidden = book["new"].column_dimensions["B"].hidden = True
    book.save(text)
    assert read(tmp_path / "list.xlsx", text.getvalue()) == [
        Row(1, ["id", "to"]), Row(2, ["1", "A"]), Row(3, ["2", "A"])]


def test_merged_cells_have_the_value_of_the_first(tmp_path: Path) -> None:
    rows: list[list[object]] = [
        ["id", "police", "remark"], [1, "frame", "x"], [2], [], [3], [4, "byte"], [5, None, "y"]]
    text = workbook(rows, "B2:B5", "B7:C7", "C2:E3", "B9:B12")
    assert read(tmp_path / "list.xlsx", text) == [
        Row(1, ["id", "police", "remark"]), Row(2, ["1", "frame", "x"]), Row(3, ["2", "frame", "x"]),
        Row(5, ["3", "frame"]), Row(6, ["4", "byte"]), Row(7, ["5", "", ""])]


def test_formulas_without_a_saved_value(tmp_path: Path) -> None:
    """Checks that such formulas are told from values. The second has an empty text as its value, the third a number;
    the last two do not say where they are."""
    text = workbook([["id", "to", "=A1"], [1, "=A1", "=2+3"], [], ["=A2", "=B2"]], "C2:C4")
    sheet = "xl/worksheets/sheet1.xml"
    saved = {b'<c r="B2">': b'<c r="B2" t="str">', b"<f>2+3</f>": b"<f>2+3</f><v>5</v>", b'<c r="A4">': b"<c>",
             b'<c r="B4">': b"<c>"}
    rows = read(tmp_path / "list.xlsx", changed(text, sheet, saved))
    assert rows == [Row(1, ["id", "to", "=A1"]), Row(2, ["1", "", "5"]), Row(4, ["=A2", "=B2", "5"])]
    assert [[isinstance(cell, Formula) for cell in row.cells] for row in rows] == [
        [False, False, True], [False, False, False], [True, True, False]]


@pytest.mark.parametrize("said, chain, is_computed", [
    ('<calcPr calcId="124519" fullCalcOnLoad="1"/>', False, False),  # XlsxWriter
    ('<calcPr fullCalcOnLoad="true"/>', False, False),
    ('<calcPr calcId="191029"/>', True, True),  # Excel
    ('<calcPr calcId="191029" fullCalcOnLoad="1"/>', True, True),
    ('<calcPr iterateCount="100" refMode="A1" iterate="false" iterateDelta="0.001"/>', False, True),  # LibreOffice
    ('<calcPr calcId="191029" fullCalcOnLoad="0"/>', False, True),
    ("", False, True)])
def test_formulas_that_no_program_has_computed(tmp_path: Path, said: str, chain: bool, is_computed: bool) -> None:
    """Checks that what was saved with such formulas is no value. XlsxWriter saves 0 with them, unless it is given
    another value; a 0 without a formula is one."""
    text = workbook([["id", "jitter_us"], [0, "=A2+1"], [0, "=A3+2"], [0, '="0"']])
    text = changed(text, "xl/worksheets/sheet1.xml", {
        b"<f>A2+1</f>": b"<f>A2+1</f><v>0</v>", b"<f>A3+2</f>": b"<f>A3+2</f><v>2</v>",
        b'<c r="B4"><f>"0"</f>': b'<c r="B4" t="str"><f>"0"</f><v>0</v>'})
    text = changed(text, "xl/workbook.xml", {b'<calcPr calcId="124519" fullCalcOnLoad="1"/>': said.encode()})
    made = io.BytesIO(text)
    with zipfile.ZipFile(made, "a") as parts:
        if chain:
            parts.writestr("xl/calcChain.xml", "<calcChain/>")
    rows = read(tmp_path / "list.xlsx", made.getvalue())
    assert rows == [Row(1, ["id", "jitter_us"]), Row(2, ["0", "0" if is_computed else "=A2+1"]), Row(3, ["0", "2"]),
                    Row(4, ["0", "0"])]
    assert isinstance(rows[1].cells[1], Formula) == (not is_computed)


def test_errors_of_a_spreadsheet(tmp_path: Path) -> None:
    """Checks that an error is told from a text: one that was put in as such, also struck through or over merged cells,
    and those that were saved with a formula and with that of an array."""
    book, text = openpyxl.Workbook(), io.BytesIO()
    for cells in (["id", "to", "via"], ["#N/A", "=A1", "=A1"], ["#REF!", None, "#N/A!"], ["x", "y"]):
        book.active.append(cells)
    book.active["A3"].font = Font(strike=True)
    book.active.merge_cells("A3:A4")
    book.save(text)
    made = changed(text.getvalue(), "xl/worksheets/sheet1.xml", {
        b'<c r="B2"><f>A1</f><v></v>': b'<c r="B2" t="e"><f>A1</f><v>#VALUE!</v>',
        b'<c r="C2"><f>A1</f><v></v>': b'<c r="C2" t="e"><f t="array" ref="C2:C3">A1</f><v>#N/A</v>'})
    rows = read(tmp_path / "list.xlsx", made)
    assert [row.cells for row in rows[1:]] == [
        ["#N/A", "#VALUE!", "#N/A"], ["#REF!", "", "#N/A!"], ["#REF!", "y"]]
    assert [[isinstance(cell, Error) for cell in row.cells] for row in rows] == [
        [False] * 3, [True] * 3, [True, False, True], [True, False]]


def test_what_is_struck_through(tmp_path: Path) -> None:
    """Checks cells that are struck through, and texts of which a part is, in the cell or shared: without it 45 would be
    a 5 whose 4 was struck."""
    run = '<r><rPr><strike{}/></rPr><t>4</t></r><r><t>{}</t></r>'
    texts = "".join(f"<si>{run.format(*said)}</si>" for said in (("", 6), (' val="0"', 7)))
    shared = f'<sst xmlns="{spreadsheet.PARTS[1:-1]}">{texts}</sst>'
    book, text = openpyxl.Workbook(), io.BytesIO()
    for cells in (["id", "to"], [40, "=A2"], ["x", "y"], ["z"]):
        book.active.append(cells)
    book.active["A2"].font = book.active["B2"].font = Font(strike=True)
    book.save(text)
    made = changed(text.getvalue(), "xl/worksheets/sheet1.xml", {
        b"<t>x</t>": run.format("", 5).encode(),
        b't="inlineStr"><is><t>y</t></is>': b't="s"><v>0</v>', b't="inlineStr"><is><t>z</t></is>': b't="s"><v>1</v>'})
    kind = KIND.replace(b"sheet.main", b"sharedStrings")
    made = changed(made, "[Content_Types].xml", {
        b"</Types>": b'<Override PartName="/xl/sharedStrings.xml" ContentType="' + kind + b'"/></Types>'})
    whole = io.BytesIO(made)
    with zipfile.ZipFile(whole, "a") as parts:
        parts.writestr("xl/sharedStrings.xml", shared)
    rows = read(tmp_path / "list.xlsx", whole.getvalue())
    assert [row.cells for row in rows] == [["id", "to"], ["40", "=A2"], ["45", "46"], ["47"]]
    assert [[isinstance(cell, Struck) for cell in row.cells] for row in rows] == [
        [False, False], [True, False], [True, True], [False]]
    assert isinstance(rows[1].cells[1], Formula)


ARRAY = "=E2:E3*2"


@pytest.mark.parametrize("value, other, own, others", [
    ("<v>0</v>", 0, ARRAY, ARRAY), ("<v>7</v>", 0, "7", ARRAY), ("<v>7</v>", 3, "7", "3"), ("", None, ARRAY, ARRAY)])
def test_the_formula_of_an_array_that_no_program_has_computed(tmp_path: Path, value: str, other: object, own: str,
                                                              others: str) -> None:
    """Checks all cells of the array. The formula stands in its first cell alone. XlsxWriter saves 0 in all, or a value
    in those for which it is given one; openpyxl saves no value."""
    text = workbook([["id", "x", "jitter_us", ""], [1, "=E2", other, 8], [2, other, other, 8], [3, 0, 0, 8]])
    text = changed(text, "xl/worksheets/sheet1.xml", {
        b"<f>E2</f><v></v>": f'<f t="array" ref="B2:C3">{ARRAY[1:]}</f>{value}'.encode()})
    rows = read(tmp_path / "list.xlsx", text)
    assert rows[1:] == [
        Row(2, ["1", own, others, "8"]), Row(3, ["2", others, others, "8"]), Row(4, ["3", "0", "0", "8"])]
    assert isinstance(rows[2].cells[2], Formula) == (others == ARRAY)


def test_a_heading_of_merged_cells_is_above_each_of_their_columns(tmp_path: Path) -> None:
    text = workbook([["id", "to"], [], [1, "A", "B"]], "A1:A2", "B1:C2")
    assert read(tmp_path / "list.xlsx", text) == [Row(1, ["id", "to", "to"]), Row(3, ["1", "A", "B"])]


UTF_16 = "zero bytes, as UTF-16 has them: it has to be UTF-8"
NO_XLSX = "a spreadsheet that is no .xlsx: save it as .xlsx or .csv"
PASSWORD = "an .xlsx with a password, or an old .xls: save it as .xlsx without a password"
XLSX = "an .xlsx by its bytes: its name has to end so"
KIND = b"application/vnd.openxmlformats-officedocument.spreadsheetml.sheet.main+xml"
STRICT = {b"http://schemas.openxmlformats.org/spreadsheetml/2006": b"http://purl.oclc.org/ooxml/spreadsheetml",
          b"http://schemas.openxmlformats.org/officeDocument/2006": b"http://purl.oclc.org/ooxml/officeDocument"}
MACROS = {KIND: b"application/vnd.ms-excel.sheet.macroEnabled.main+xml"}


def test_a_workbook_with_lists_to_choose_from_is_read_without_a_warning(
        tmp_path: Path, recwarn: pytest.WarningsRecorder) -> None:
    """Checks that the warning of openpyxl, that it would not save them, is not seen."""
    choices = b'</sheetData><extLst><ext uri="{CCE6A557-97BC-4b89-ADB6-D9C93CAAB3DF}"/></extLst>'
    text = changed(workbook([["id"], [1]]), "xl/worksheets/sheet1.xml", {b"</sheetData>": choices})
    assert read(tmp_path / "list.xlsx", text) == [Row(1, ["id"]), Row(2, ["1"])]
    assert not recwarn.list


@pytest.mark.parametrize("name, text, line", [
    ("list.csv", b"", "no heading, {}"),
    ("list.csv", b"id\n1\n\xff\n", "not UTF-8, {} line 3"),
    ("list.csv", "id,to\n1,Ä\n".encode("utf-16-le"), f"{UTF_16}, {{}} line 1"),
    ("list.csv", "id,to\n1,A\n".encode("utf-16-be"), f"{UTF_16}, {{}} line 1"),
    ("list.csv", b"id,to\n1,A\0", f"{UTF_16}, {{}} line 2"),
    ("list.csv", b'id,"to"x\n', "not separated values: ',' expected after '\"', {}"),
    ("list.csv", workbook([["id"]]), f"{XLSX}, {{}}"),
    ("list", workbook([["id"]]), f"{XLSX}, {{}}"),
    ("list.xlsm", changed(workbook([["id"]]), "[Content_Types].xml", MACROS), f"{NO_XLSX}, {{}}"),
    ("list.csv", workbook([["id"]])[:200], f"{NO_XLSX}, {{}}"),
    ("list.ods", b"PK\3\4" + bytes(504), f"{NO_XLSX}, {{}}"),
    ("list.xls", b"\xd0\xcf\x11\xe0\xa1\xb1\x1a\xe1" + bytes(504), f"{NO_XLSX}, {{}}"),
    ("list.xlsx", b"\xd0\xcf\x11\xe0\xa1\xb1\x1a\xe1" + bytes(504), f"{PASSWORD}, {{}}"),
    ("list.xlsx", changed(workbook([["id"]]), "xl/workbook.xml", STRICT),
     "an .xlsx of the strict form: save it as .xlsx, as an Excel workbook, {}"),
    ("list.xlsx", b"id,to\n", "not a workbook that can be read: save it again, as .xlsx or .csv, {}")])
def test_files_that_are_no_lists(tmp_path: Path, name: str, text: bytes, line: str) -> None:
    with pytest.raises(Failure) as ended:
        read(tmp_path / name, text)
    assert ended.value.status == INPUT
    assert ended.value.lines == (f"command: {line.format(tmp_path / name)}",)


@given(rows=strategies.lists(strategies.lists(CELLS, min_size=2, max_size=2)),
       separator=strategies.sampled_from(",;\t"))
def test_what_a_spreadsheet_writes_is_read(tmp_path: Path, rows: list[list[str]], separator: str) -> None:
    text = io.StringIO()
    csv.writer(text, delimiter=separator).writerows([["id", "to"], *rows])
    kept = [[cell.strip() for cell in row] for row in rows]
    assert [row.cells for row in read(tmp_path / "list.csv", text.getvalue().encode())[1:]] == [
        row for row in kept if any(row)]


def is_list_or_refused(path: Path, text: bytes) -> bool:
    """Says that bytes are read, or refused as input; anything else is raised."""
    try:
        return bool(read(path, text))
    except Failure as failure:
        return failure.status == INPUT


@given(text=strategies.binary())
def test_any_bytes_are_a_list_or_refused(tmp_path: Path, text: bytes) -> None:
    assert is_list_or_refused(tmp_path / "list.csv", text)


@given(place=strategies.floats(0, 1, exclude_max=True), byte=strategies.none() | strategies.integers(0, 255))
def test_a_damaged_workbook_is_a_list_or_refused(tmp_path: Path, place: float, byte: int | None) -> None:
    text = workbook([["id", "to"], [1, "A"]])
    at = int(place * len(text))
    rest = b"" if byte is None else bytes([byte]) + text[at + 1:]
    assert is_list_or_refused(tmp_path / "list.xlsx", text[:at] + rest)
