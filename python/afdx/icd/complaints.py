"""Keeps all that is wrong with the lists, to be said at once."""
from dataclasses import dataclass, field

from afdx.failure import INPUT, Failure
from afdx.icd.cells import quoted


@dataclass(frozen=True, order=True)
class Place:
    """A cell of a list, or its heading."""
    order: int  # the list's place among the three
    line: int
    rank: int  # the column's place in the list
    path: str
    column: str  # empty if all of the line is meant
    value: str | None  # None at a heading

    def words(self) -> str:
        value = "" if self.value is None else f", value {quoted(self.value)}"
        column = f", column {self.column}" if self.column else ""
        return f"{self.path} line {self.line}{column}{value}"


@dataclass
class Complaints:
    """What is wrong, by place."""
    found: list[tuple[Place, str]] = field(default_factory=list)
    rows: set[tuple[int, int]] = field(default_factory=set)  # the order and line of each place
    doubts: list[tuple[Place, str]] = field(default_factory=list)  # what may be wrong

    def note(self, place: Place, what: str) -> None:
        self.found.append((place, what))
        self.rows.add((place.order, place.line))

    def warnings(self, command: str) -> list[str]:
        """Returns a line for each doubt, in the order of the lists and lines."""
        return [f"{command}: warning: {what}, {place.words()}" for place, what in sorted(self.doubts)]

    def refuse(self, command: str) -> None:
        """Ends the command if anything is wrong, with a line for each, in the order of the lists and lines, after the
        warnings."""
        if self.found:
            lines = [f"{command}: {what}, {place.words()}" for place, what in sorted(self.found)]
            raise Failure(INPUT, *self.warnings(command), *lines)
