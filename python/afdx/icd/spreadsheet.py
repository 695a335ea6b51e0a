"""Reads spreadsheets, .csv and .xlsx, as rows of texts that know their line."""
import csv
import io
import json
import re
import warnings
from collections.abc import Iterable, Iterator
from dataclasses import dataclass, field
from pathlib import Path
from typing import IO, Any
from xml.etree import ElementTree
from zipfile import ZipFile

from openpyxl.reader.excel import ExcelReader
from openpyxl.utils import coordinate_to_tuple, range_boundaries

from afdx import files
from afdx.failure import INPUT, Failure

SEPARATORS = (",", "\t", ";")
ERROR = re.compile(r"#\S+[!?]|#[^\W\d]/[^\W\d]|#NV|Err:[0-9]{3}")  # as text: #REF!, #N/A, German #BEZUG!, #NV ..
QUOTED = re.compile(r'(?<![^,;\t\n])"(?:[^"]|"")*+"')  # a cell from its first quote to its last, whatever the separator
SAID = re.compile(r"sep=([,;\t])[,;\t]*\r?\n")
WORKBOOK, CHAIN = "xl/workbook.xml", "xl/calcChain.xml"  # parts of an .xlsx: the second is Excel's, if it computed
SHARED = "xl/sharedStrings.xml"  # texts of all sheets
STRICT = b"http://purl.oclc.org/ooxml/"  # names of parts begin so in a form of .xlsx that openpyxl does not read
TYPES, XLSX = "[Content_Types].xml", b"spreadsheetml.sheet.main+xml"  # the part with its kind; .xlsm has another kind
OLD = b"\xd0\xcf\x11\xe0"  # what .xls begins with, and an .xlsx with a password
BOOKS = (b"PK\3\4", OLD)  # the first is what .xlsm and .ods begin with
FIRST = 20  # rows in which the separator is looked for, or of a sheet beside the list its headings
UNCOMPUTED = "0"  # the value of a formula that XlsxWriter did not compute
PARTS = "{http://schemas.openxmlformats.org/spreadsheetml/2006/main}"  # before the tag of each part of a workbook
ROW, MERGED = f"{PARTS}row", f"{PARTS}mergeCell"


class Formula(str):
    """A formula in place of the value that was not saved with it."""


class Struck(str):
    """A text that is struck through, or a part of it."""


class Error(str):
    """An error of the spreadsheet in place of a value, as #N/A."""


@dataclass(frozen=True)
class Marks:
    """What tells that a cell's value is none, or is struck through in part."""
    none: str  # what was saved with formulas that were not computed
    texts: set[str]  # those that all sheets share and that are struck through in part, by number


@dataclass(frozen=True)
class Row:
    """A row that is not empty. Lines are counted from 1; in .xlsx a line is the row's number."""
    line: int
    cells: list[str]


@dataclass(frozen=True)
class Sheet:
    """A list of rows below a heading, which is the first row that is not empty."""
    place: str  # the file, and the sheet if more than one is visible
    name: str  # of the sheet, so too
    heading: Row
    rows: list[Row]
    others: dict[str, list[Row]]  # the first rows of other visible sheets, by their places


@dataclass(frozen=True)
class Found:
    """What is in a file: all rows of a list, the name of their sheet if it is not the only visible one, and the first
    rows of the others, by name."""
    rows: list[Row]
    name: str = ""
    others: dict[str, list[Row]] = field(default_factory=dict)


def text_of(value: object) -> str:
    """Writes a workbook's cell as the same cell of a .csv would be; a whole number may be kept there as 8.0."""
    if value is None:
        return ""
    if isinstance(value, float) and value.is_integer():
        return str(int(value))
    return str(value).strip()


def told(text: str) -> str:
    """Returns a text, marked if it is one that spreadsheets write for an error, in whatever language."""
    return Error(text) if ERROR.fullmatch(text) else text


def text_in(cell: Any) -> str:
    """Returns the text of a workbook's cell, marked if it is an error, or all of it is struck through."""
    text = text_of(cell.value)
    if cell.data_type == "e":
        return Error(text)
    return Struck(text) if text and cell.font.strike else told(text)


def is_uncomputed(parts: ZipFile) -> bool:
    """Returns whether a workbook says that all its formulas have to be computed when it is opened, and no program has
    left the order in which it computed them. XlsxWriter saves 0 with formulas, and such a workbook."""
    if WORKBOOK not in parts.namelist() or CHAIN in parts.namelist():
        return False
    said = ElementTree.fromstring(parts.read(WORKBOOK)).find(f"{PARTS}calcPr")
    return said is not None and said.get("fullCalcOnLoad") in ("1", "true")


def has_strike(text: ElementTree.Element) -> bool:
    """Returns whether a text has a part that is struck through."""
    return any(strike.get("val") not in ("0", "false") for strike in text.iter(f"{PARTS}strike"))


def marks_of(parts: ZipFile) -> Marks:
    shared = list(ElementTree.fromstring(parts.read(SHARED))) if SHARED in parts.namelist() else []
    texts = {str(at) for at, text in enumerate(shared) if has_strike(text)}
    return Marks(UNCOMPUTED if is_uncomputed(parts) else "", texts)


def elements_of(part: IO[bytes]) -> Iterator[ElementTree.Element]:
    """Returns a sheet's rows and merged ranges one by one. What they have beside values and fonts openpyxl does not say
    of a sheet that it reads row by row."""
    for _, element in ElementTree.iterparse(part):
        if element.tag in (MERGED, ROW):
            yield element
        if element.tag == ROW:
            element.clear()


def is_saved(cell: ElementTree.Element, none: str) -> bool:
    """Returns whether a value was saved with the formula of a cell, other than this text, which is none; a text without
    characters is a value."""
    value = cell.find(f"{PARTS}v")
    return value is not None and (value.text not in (None, none) or cell.get("t") == "str")


def put_formula(rows: list[Row], line: int, column: int, cell: ElementTree.Element, none: str) -> None:
    """Puts the formula of a cell where it has no value: there, and of an array's formula, which stands in the first
    cell alone, also in the others of its range that are empty or have the text that is none."""
    formula = cell.find(f"{PARTS}f")
    if formula is None:
        return
    text, unsaved = Formula(f"={formula.text or ''}"), {none} - {""}
    if not is_saved(cell, none):
        rows[line - 1].cells[column - 1] = text
        unsaved.add("")
    if formula.get("t") == "array" and "ref" in formula.attrib:
        left, top, right, bottom = range_boundaries(formula.attrib["ref"])
        for row in rows[top - 1:bottom]:
            row.cells[left - 1:right] = [text if own in unsaved else own for own in row.cells[left - 1:right]]


def put_struck(cells: list[str], column: int, cell: ElementTree.Element, marks: Marks) -> None:
    """Marks the text of a cell that is struck through in part."""
    shared = cell.findtext(f"{PARTS}v") if cell.get("t") == "s" else None
    is_struck = shared in marks.texts or has_strike(cell)
    text = cells[column - 1] if column <= len(cells) else ""
    if is_struck and text and not isinstance(text, (Formula, Error)):
        cells[column - 1] = Struck(text)


def put_marks(rows: list[Row], part: IO[bytes], marks: Marks) -> list[str]:
    """Puts formulas without values where they stand, and marks what is struck through in part. Returns the ranges of
    merged cells, A2:B5 for instance."""
    ranges, line = [], 0
    for element in elements_of(part):
        if element.tag == MERGED:
            ranges.append(element.attrib["ref"])
            continue
        line, column = int(element.get("r", line + 1)), 0
        for cell in element:
            column = coordinate_to_tuple(cell.attrib["r"])[1] if "r" in cell.attrib else column + 1
            put_formula(rows, line, column, cell, marks.none)
            put_struck(rows[line - 1].cells, column, cell, marks)
    return ranges


def spread(rows: list[Row], ranges: Iterable[str]) -> None:
    """Gives all cells of merged ranges the texts of their first ones, in rows that are not empty without that. Below
    the heading no row becomes wider than the heading is."""
    filled = {row.line: row.cells for row in rows if any(row.cells)}
    heading = min(filled, default=0)
    width = len(filled.get(heading, []))
    for left, top, right, bottom in map(range_boundaries, ranges):
        first = filled.get(top, [])[left - 1:left] or [""]
        for line in range(top, min(bottom, len(rows)) + 1):
            cells = filled.get(line, [])
            last = right if line == heading else min(right, width)
            if cells and left <= last:
                cells += [""] * (last - len(cells))
                cells[left - 1:last] = first * (last - left + 1)


def sheet_rows(sheet: Any, most: int | None = None) -> list[Row]:
    """Returns the rows of a sheet, or this number of them at most, of formulas the values that were saved with them.
    How large the sheet says that it is does not count: programs other than Excel write less than there is."""
    sheet.reset_dimensions()
    return [Row(line, [text_in(cell) for cell in cells]) for line, cells in enumerate(sheet.iter_rows(max_row=most), 1)]


def workbook_rows(text: bytes) -> Found:
    """Returns the rows of a workbook's first visible sheet, and what there is beside it."""
    reader = ExcelReader(io.BytesIO(text), read_only=True, data_only=True)
    reader.read()
    sheet, *others = (sheet for sheet in reader.wb.worksheets if sheet.sheet_state == "visible")
    rows, first = sheet_rows(sheet), {other.title: sheet_rows(other, FIRST) for other in others}
    part = next(link.target for found, link in reader.parser.find_sheets() if found.name == sheet.title)
    with reader.archive as parts, parts.open(part) as source:
        spread(rows, put_marks(rows, source, marks_of(parts)))
    return Found(rows, sheet.title if others else "", first)


def separator_of(text: str) -> str:
    """Returns the separator that all of the first rows have as often as the first one, if it is the only such one, or
    what the first row has most of, both outside quotes, in which there may be line feeds too."""
    rows = [row for row in QUOTED.sub("", text.lstrip("\r\n")).split("\n") if row.strip("\r ")][:FIRST] or [""]
    even = [sign for sign in SEPARATORS if sign in rows[0] and len({row.count(sign) for row in rows}) == 1]
    return even[0] if len(even) == 1 else max(SEPARATORS, key=rows[0].count)


def has_next_row(cell: str, at: int, width: int, separator: str) -> bool:
    """Returns whether a cell with this place in its row has the rest of the row, and the next one up to that place, as
    between quotes of which others are missing. Before a space, as texts have it, a separator counts for none."""
    if "\n" not in cell or width < 4:
        return False
    first, *between, last = [line.count(separator) - line.count(f"{separator} ") for line in cell.split("\n")]
    return (first, last) == (width - 1 - at, at) and set(between) <= {width - 1}


def separated_rows(text: str) -> list[Row]:
    """Returns the rows of separated values; one with line feeds in its cells is of the line where it begins. A first
    line may say the separator, as some spreadsheets have it."""
    said = SAID.match(text)
    separator = said[1] if said else separator_of(text)
    begin, first = (said.end(), 1) if said else (0, 0)
    reader = csv.reader(io.StringIO(text[begin:], newline=""), delimiter=separator, strict=True)
    rows, line, width = [], first + 1, 0
    for cells in reader:
        rows.append(Row(line, [told(cell.strip()) for cell in cells]))
        width = width or len(cells)
        if any(has_next_row(cell, at, width, separator) for at, cell in enumerate(rows[-1].cells)):
            raise csv.Error(f"whole rows within quotes, line {line}: one may be missing")
        line = first + reader.line_num + 1
    return rows


def has_part(text: bytes, name: str, said: bytes) -> bool:
    """Returns whether bytes are an archive in which a part has these."""
    try:
        with ZipFile(io.BytesIO(text)) as parts:
            return said in parts.read(name)
    except Exception:  # what the reader of ZIP raises is nowhere listed
        return False


def why_unread(text: bytes) -> str:
    """Says why bytes under the name of an .xlsx cannot be read."""
    if text.startswith(OLD):
        return "an .xlsx with a password, or an old .xls: save it as .xlsx without a password"
    if has_part(text, WORKBOOK, STRICT):
        return "an .xlsx of the strict form: save it as .xlsx, as an Excel workbook"
    return "not a workbook that can be read: save it again, as .xlsx or .csv"


def rows_of(command: str, path: Path) -> Found:
    """Returns what is in a file, read by its ending."""
    text = files.get(command, path)
    if path.suffix.lower() == ".xlsx":
        try:
            with warnings.catch_warnings():
                warnings.simplefilter("ignore")  # openpyxl's are of what no value is in, as lists to choose from
                return workbook_rows(text)
        except Exception as error:  # what the readers of ZIP and XML below openpyxl raise is nowhere listed
            raise Failure(INPUT, f"{command}: {why_unread(text)}, {path}") from error
    if text.startswith(BOOKS):
        what = "a spreadsheet that is no .xlsx: save it as .xlsx or .csv"
        if has_part(text, TYPES, XLSX):
            what = "an .xlsx by its bytes: its name has to end so"
        raise Failure(INPUT, f"{command}: {what}, {path}")
    if b"\0" in text:
        line = text.count(b"\n", 0, text.index(b"\0")) + 1
        raise Failure(INPUT, f"{command}: zero bytes, as UTF-16 has them: it has to be UTF-8, {path} line {line}")
    try:
        return Found(separated_rows(text.decode("utf-8-sig")))
    except UnicodeDecodeError as error:
        line = text.count(b"\n", 0, error.start) + 1
        raise Failure(INPUT, f"{command}: not UTF-8, {path} line {line}") from error
    except csv.Error as error:
        raise Failure(INPUT, f"{command}: not separated values: {error}, {path}") from error


def place_of(path: Path, name: str) -> str:
    """Returns a file's place, with the name of a sheet if there is one."""
    return f"{path} sheet {json.dumps(name, ensure_ascii=False)}" if name else str(path)


def read(command: str, path: Path) -> Sheet:
    """Reads a file; rows whose cells are all empty are left out."""
    found = rows_of(command, path)
    rows = [row for row in found.rows if any(row.cells)]
    place = place_of(path, found.name)
    if not rows:
        raise Failure(INPUT, f"{command}: no heading, {place}")
    others = {place_of(path, name): first for name, first in found.others.items()}
    return Sheet(place, found.name, rows[0], rows[1:], others)
