"""Finds the columns of a list and reads its cells."""
import re
from collections.abc import Callable, Iterable, Iterator
from itertools import groupby
from pathlib import Path
from typing import Any, TypeVar, cast

from afdx.icd import spreadsheet
from afdx.icd.cells import Column, Unfit, one_line, quoted, words_of
from afdx.icd.columns import NAME, Columns
from afdx.icd.complaints import Complaints, Place
from afdx.icd.mapping import ListMapping
from afdx.icd.spreadsheet import Error, Formula, Row, Struck

T = TypeVar("T")
UNITS = {"ms", "us", "ns"}  # at the ends of keys
UNSAVED = "a formula whose value was not saved with it"
ERROR = "an error of the spreadsheet in place of a value: it has to be mended there"
NOTE = "no more than two cells of this row are filled: if it is a note, it has to go"
WORDED = "no number in this row: if it has units or headings, it has to go"
BARE = "no heading above this cell: its column has to have one, or to go"
ALIKE = "not read, but {} is: what counts has to be in that column"
GAP = "empty, though others of this column are not: {} counts here"
OTHER = "not read, with headings as the first visible sheet has: if the rows of this one count, they have to be there"
STRUCK = "struck through, and read all the same: if this {} does not count, it has to go"


def folded(heading: str) -> str:
    """Returns a heading as it is compared: on one line, in small letters."""
    return one_line(heading).casefold()


def names_of(column: Column[Any]) -> list[list[str]]:
    """Returns what a column may be called, in words: its key less its unit, and how it may be called too."""
    own = words_of(column.key)
    return [own[:-1] if own[-1] in UNITS else own, *map(words_of, column.also)]


def begins_with_words(heading: str, name: list[str]) -> bool:
    """Returns whether the first words of a heading are a name: `Port [1..24]` is so of `port`, `total` not of `to`."""
    return words_of(heading)[:len(name)] == name


def looks_like(heading: str, name: list[str]) -> bool:
    """Returns whether each word of a name begins or ends a word of a heading, in whatever order, or the letters and
    digits of the heading, in small letters, begin or end with those of the name: `Delay max` and `MAXDELAYS` look so
    like `max delay`."""
    words, letters = words_of(heading), "".join(name)
    found = all(any(word.startswith(part) or word.endswith(part) for word in words) for part in name)
    return found or "".join(words).startswith(letters) or "".join(words).endswith(letters)


def unnumbered(heading: str) -> str:
    """Returns the letters of a heading, in small ones: those of `Dest 1` and `DEST_2` are the same."""
    return "".join(re.sub(r"\d", "", word) for word in words_of(heading))


def numbers_of(heading: str) -> list[str]:
    return re.findall(r"\d+", heading)


def none_in(text: str) -> str:
    """Returns why a text is no value, or nothing if it is one."""
    if isinstance(text, Formula):
        return UNSAVED
    return ERROR if isinstance(text, Error) else ""


def is_short(row: Row) -> bool:
    """Returns whether one or two cells of a row are filled, none with an error. Neighbours of one text, as those of a
    merged range are, count as one."""
    has_error = any(isinstance(text, Error) for text in row.cells)
    return not has_error and sum(text != "" for text, _ in groupby(row.cells)) <= 2


def is_worded(row: Row) -> bool:
    """Returns whether no cell of a row has a digit, or an error: it may have units, or headings again."""
    return not any(isinstance(text, Error) or re.search(r"\d", text) for text in row.cells)


class List:
    """A list with its columns. What is wrong with it goes to the complaints."""

    def __init__(self, command: str, path: Path, order: int, known: Columns, mapping: ListMapping,
                 complaints: Complaints) -> None:
        sheet = spreadsheet.read(command, path)
        self.sheet, self.width = sheet, len(sheet.heading.cells)
        self.order, self.mapping, self.complaints = order, mapping, complaints
        self.places: dict[str, int] = {}
        for column in known:
            self.find(column)
        self.struck = self.warn_of_struck_columns(known)
        needed = [column for column in known if not self.may_be_missing(column)]
        self.is_there = self.seems_there(needed)
        if self.is_there:
            self.complain_of_headings(known)
            self.complain_of_units(known)
            self.warn_of_headings_alike()
            self.warn_of_other_sheets()
        else:
            self.complain_of_all(needed)
        for at, heading in enumerate(sheet.heading.cells):
            if none_in(heading):
                self.complain_beside(sheet.heading, none_in(heading), [at])

    def heading(self, column: Column[Any]) -> str:
        """Returns what a column is called: in the list, or what is looked for if the list lacks it."""
        if column.key in self.places:
            return one_line(self.sheet.heading.cells[self.places[column.key]])
        return self.mapping.headings.get(column.key) or column.key

    def places_of(self, column: Column[Any]) -> list[int]:
        """Returns where a column's heading stands."""
        name = folded(self.heading(column))
        return [place for place, heading in enumerate(self.sheet.heading.cells) if folded(heading) == name]

    def find(self, column: Column[Any]) -> None:
        """Finds a column, unless the mapping says that there is none."""
        at = self.places_of(column) if self.mapping.headings.get(column.key) != "" else []
        if at:
            self.places[column.key] = at[0]

    def seems_there(self, needed: Columns) -> bool:
        """Returns whether the headings seem to be those of the list: one of a column that has to be there is found, or
        two may be such ones."""
        found = any(column.key in self.places for column in needed)
        return found or not needed or sum(bool(self.likely(column)) for column in needed) > 1

    def complain_of_headings(self, known: Columns) -> None:
        """Complains of columns that are there twice or not at all. One that the mapping names has to be there."""
        for column in known:
            is_named, is_none = column.key in self.mapping.headings, self.mapping.headings.get(column.key) == ""
            if column.key in self.places and len(self.places_of(column)) > 1:
                self.complain_of_heading(column, "two columns of this name")
            elif is_named and column.key not in self.places and not (is_none and self.may_be_missing(column)):
                likely = self.likely(column)
                it = f", {quoted(one_line(likely))} may be it" if likely else ""
                self.complain_of_heading(column, f"no such column{it}")
            self.complain_of_missing(column)

    def complain_of_all(self, needed: Columns) -> None:
        """Complains once of headings of which none is one of the list."""
        other = "is the list on another sheet, " if self.sheet.name else ""
        what = f"none of the headings {', '.join(map(self.heading, needed))}"
        asked = f"{other}is there a title above them, or has the mapping to name them?"
        self.complaints.note(self.place_of_headings(), f"{what}: {asked}")

    def may_be_missing(self, column: Column[Any]) -> bool:
        return column.default is not None or column.key in self.mapping.defaults

    def likely(self, column: Column[Any]) -> str:
        """Returns the first heading by which a column seems to be there, or nothing. Of a column that has to be
        there, which is refused anyway, it begins with the words; of one that may be missing it looks like it in other
        ways too, so that none is passed over. A link's name is but a comment."""
        alike = begins_with_words if not self.may_be_missing(column) else looks_like
        names = [*names_of(column), words_of(self.mapping.headings.get(column.key, ""))]
        likely = [heading for heading in self.unread() if any(name and alike(heading, name) for name in names)]
        return likely[0] if likely and column is not NAME else ""

    def unread(self) -> list[str]:
        """Returns the headings of columns that are not read."""
        return [text for at, text in enumerate(self.sheet.heading.cells) if text and at not in self.places.values()]

    def complain_of_units(self, known: Columns) -> None:
        """Complains of headings that say that their values are in something else than the column's."""
        for column in known:
            other = column.unit.other_in(self.heading(column))
            if other and column.key in self.places:
                what = f'"{other}" in its heading: the values of {column.key} have to be {column.unit.what}'
                self.complain_of_heading(column, what)

    def warn_of_headings_alike(self) -> None:
        """Warns of columns that are not read and whose headings differ in numbers alone from those that are, as `Dest
        2` does from `Dest 1`."""
        read = {unnumbered(self.sheet.heading.cells[at]): self.sheet.heading.cells[at] for at in self.places.values()}
        for heading in self.unread():
            other = read.get(unnumbered(heading), heading)
            if numbers_of(other) != numbers_of(heading) and unnumbered(heading):
                place = Place(self.order, self.sheet.heading.line, 0, self.sheet.place, one_line(heading), None)
                self.complaints.doubts.append((place, ALIKE.format(quoted(one_line(other)))))

    def passed_over(self) -> list[str]:
        """Returns a line for all columns that are not read, and one for each other sheet that has rows."""
        columns = ", ".join(dict.fromkeys(quoted(one_line(heading)) for heading in self.unread()))
        sheets = [place for place, rows in self.sheet.others.items() if any(any(row.cells) for row in rows)]
        return [f"{self.sheet.place} not read: {columns}"] * bool(columns) + [f"{place} not read" for place in sheets]

    def complain_of_missing(self, column: Column[Any]) -> None:
        """Complains of a column that neither the list nor the mapping has: if nothing stands for its empty cells, or if
        it seems to be there by another heading."""
        if column.key in self.places or column.key in self.mapping.headings:
            return
        likely = self.likely(column)
        shown = quoted(one_line(likely))
        values = f"its values have to be {column.unit.what}, and " if column.unit.other_in(likely) else ""
        asked = f"{values}the mapping has to name it"
        if not self.may_be_missing(column):
            self.complain_of_heading(column, f"no such column{f', {shown} may be it' if likely else ''}: {asked}")
        elif likely:
            self.complain_of_heading(column, f'{shown} may be this column: {asked}, or "" for none')

    def place_of_headings(self) -> Place:
        return Place(self.order, self.sheet.heading.line, 0, self.sheet.place, "", None)

    def place_of_heading(self, column: Column[Any]) -> Place:
        return Place(self.order, self.sheet.heading.line, 0, self.sheet.place, self.heading(column), None)

    def complain_of_heading(self, column: Column[Any], what: str) -> None:
        self.complaints.note(self.place_of_heading(column), what)

    def warn_of_other_sheets(self) -> None:
        """Warns of visible sheets in which the list may go on: one of their first rows has most of the headings under
        which it is read."""
        headings = {folded(self.sheet.heading.cells[at]) for at in self.places.values()}
        for path, rows in self.sheet.others.items():
            like = [row for row in rows if 2 * len(headings.intersection(map(folded, row.cells))) > len(headings)]
            self.complaints.doubts += [(Place(self.order, row.line, 0, path, "", None), OTHER) for row in like[:1]]

    def warn_of_struck_columns(self, known: Columns) -> set[int]:
        """Warns of the columns that are read and whose headings are struck through; returns where they are."""
        headings = self.sheet.heading.cells
        struck = [column for column in known
                  if column.key in self.places and isinstance(headings[self.places[column.key]], Struck)]
        self.complaints.doubts += [(self.place_of_heading(column), STRUCK.format("column")) for column in struck]
        return {self.places[column.key] for column in struck}

    def warn_if_empty(self, what: str) -> None:
        """Warns of a list without rows."""
        if not self.sheet.rows:
            self.complaints.doubts.append((self.place_of_headings(), what))

    def rows(self, note: Callable[[Row], str] = lambda row: NOTE) -> Iterator[Row]:
        """Returns the rows. A cell that no heading is above, as an unquoted separator makes them, is a complaint. A row
        that may be a note, of which this one says what it is, or that may belong to the headings has but one."""
        for row in self.sheet.rows:
            before = len(self.complaints.found)
            beyond = [at for at in range(self.width, len(row.cells)) if row.cells[at]]
            self.complain_beside(row, "more cells than the heading has", beyond[:1])
            self.warn_of_struck(row)
            yield row
            if len(self.complaints.found) > before + 1 and (is_short(row) or is_worded(row)):
                del self.complaints.found[before:]
                what = note(row) if is_short(row) else WORDED
                self.complain_beside(row, what, [at for at, text in enumerate(row.cells) if text][:1])
        self.complain_of_bare_columns()

    def bare_columns(self) -> set[int]:
        """Returns the columns without a heading that are right of one that is read, whose heading may be meant for
        them too, as that of a merged range in a .csv."""
        bare, is_read = set(), False
        for at, heading in enumerate(self.sheet.heading.cells):
            is_read = at in self.places.values() if heading else is_read
            if is_read and not heading:
                bare.add(at)
        return bare

    def complain_of_bare_columns(self) -> None:
        """Complains of the first cell in each of these, in rows that are no notes."""
        bare = self.bare_columns()
        for row in [row for row in self.sheet.rows if self.is_sound(row) or not is_short(row)]:
            filled = [at for at, text in enumerate(row.cells) if text and at in bare]
            self.complain_beside(row, BARE, filled)
            bare.difference_update(filled)

    def warn_of_struck(self, row: Row) -> None:
        """Warns of the first cell that is read and struck through, in a column whose heading is not."""
        read = [at for at in sorted(set(self.places.values()) - self.struck) if at < len(row.cells)]
        struck = [at for at in read if isinstance(row.cells[at], Struck)]
        self.complaints.doubts += [(self.place_beside(row, at), STRUCK.format("row")) for at in struck[:1]]

    def warn_of_gaps(self, *known: Column[Any]) -> None:
        """Warns of the first empty cell of columns that have others, as those of a merged range are in a .csv, if it
        counts as what the command has for it."""
        for column in known:
            empty = [row for row in self.sheet.rows if not self.text(row, column)]
            if 0 < len(empty) < len(self.sheet.rows):
                self.warn(empty[0], column, GAP.format(column.default))

    def place_beside(self, row: Row, at: int) -> Place:
        return Place(self.order, row.line, at, self.sheet.place, str(at + 1), row.cells[at])

    def complain_beside(self, row: Row, what: str, at: Iterable[int]) -> None:
        """Complains of cells by the numbers of their columns."""
        for place in at:
            self.complaints.note(self.place_beside(row, place), what)

    def own(self, row: Row, column: Column[Any]) -> str:
        """Returns a cell's text, which is empty if the cell is not there."""
        at = self.places.get(column.key, self.width)
        return row.cells[at] if at < min(self.width, len(row.cells)) else ""

    def text(self, row: Row, column: Column[Any]) -> str:
        """Returns a cell's text; if the cell is empty or not there, what the mapping has for it."""
        return self.own(row, column) or self.mapping.defaults.get(column.key, "")

    def place(self, row: Row, column: Column[Any]) -> Place:
        rank = self.places.get(column.key, self.width)
        return Place(self.order, row.line, rank, self.sheet.place, self.heading(column), self.text(row, column))

    def complain(self, row: Row, column: Column[Any], what: str) -> None:
        self.complaints.note(self.place(row, column), what)

    def warn(self, row: Row, column: Column[Any], what: str) -> None:
        self.complaints.doubts.append((self.place(row, column), what))

    def cell(self, row: Row, column: Column[T]) -> T:
        """Reads a cell. If it is not what its column holds, there is a complaint, and the answer means nothing."""
        text = self.text(row, column) or column.default
        try:
            if text is None:
                raise Unfit("empty")
            if none_in(text):
                raise Unfit(none_in(text))
            return column.reader(text)
        except Unfit as unfit:
            self.complain(row, column, str(unfit))
            return cast(T, None)

    def is_sound(self, row: Row) -> bool:
        """Says whether no cell of a row has a complaint."""
        return (self.order, row.line) not in self.complaints.rows
