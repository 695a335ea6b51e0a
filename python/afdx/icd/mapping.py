"""Reads the mapping: what the lists' columns are called, what stands for empty cells, and what all switches have."""
import re
from dataclasses import dataclass
from pathlib import Path
from typing import Any, TypeVar

from afdx import files, toml
from afdx.failure import INPUT, Failure
from afdx.icd import columns
from afdx.icd.cells import Column, Unfit, one_line, quoted, whole

T = TypeVar("T")
LISTS = {"": columns.LINKS, "ends": columns.ENDS, "wires": columns.WIRES}  # by their name in a section


def constant(text: str) -> str:
    """Reads the constant field: a group address of 8 hexadecimal digits."""
    if not re.fullmatch(r"[0-9A-Fa-f][37BFbf][0-9A-Fa-f]{6}", text, re.ASCII):
        raise Unfit("not 8 hexadecimal digits whose first byte has its two lowest bits set")
    return text


LATENCY = Column("latency_us", whole(0, 100), "0")
LEAST_LATENCY = Column("least_latency_us", whole(0, 100), "0")
CONSTANT = Column("constant", constant, "03000000")


def value_of(column: Column[T], values: dict[str, str]) -> T:
    """Reads a value, or the column's own if there is none."""
    return column.reader(values.get(column.key, column.default or ""))


@dataclass(frozen=True)
class ListMapping:
    """What one list's columns are called, and the texts that stand for its empty cells, both by key."""
    headings: dict[str, str]
    defaults: dict[str, str]


@dataclass(frozen=True)
class Mapping:
    links: ListMapping
    ends: ListMapping
    wires: ListMapping
    latency_us: int
    least_latency_us: int
    constant: str


class Reading:
    """Reads the sections of a mapping, and keeps what is wrong with them."""

    def __init__(self, text: bytes) -> None:
        self.wrong: list[str] = []
        self.sections: dict[str, Any] = toml.content(text)
        for name in self.sections.keys() - {"columns", "defaults", "switches"}:
            self.wrong.append(f"no such section, {name}")

    def values(self, place: str, known: columns.Columns, number: bool) -> dict[str, str]:
        """Returns the values of a section as texts; other values are wrong, and other keys, but for the sections of
        lists in it."""
        section: Any = self.sections
        for name in place.split("."):
            section = section.get(name, {}) if isinstance(section, dict) else {}
        if not isinstance(section, dict):
            self.wrong.append(f"not a section, {place}")
            return {}
        keys = {column.key for column in known}
        found = {key: value for key, value in section.items() if "." in place or key not in LISTS}
        texts = {}
        for key, value in found.items():
            if key not in keys:
                self.wrong.append(f"no such key, {place}.{toml.shown(key)}")
            elif isinstance(value, str) or number and type(value) is int:
                texts[key] = str(value)
            else:
                self.wrong.append(f"not a text{' or a whole number' if number else ''}, {place}.{key}")
        return texts

    def fit(self, place: str, known: columns.Columns) -> dict[str, str]:
        """Returns the values of a section that are cells; one that its column cannot hold is wrong."""
        values = self.values(place, known, number=True)
        for column in known:
            try:
                if column.key in values:
                    column.reader(values[column.key])
            except Unfit as unfit:
                self.wrong.append(f"{unfit}, {place}.{column.key}")
        return values

    def refuse_shared(self, place: str, known: columns.Columns, headings: dict[str, str]) -> None:
        """Complains of a heading that two columns have. What the mapping does not name has its key as its heading."""
        first: dict[str, str] = {}
        for column in sorted(known, key=lambda column: column.key in headings):
            heading = one_line(headings.get(column.key, column.key))
            other = first.setdefault(heading.casefold(), column.key)
            if heading and other != column.key:
                self.wrong.append(f"{quoted(heading)} is the heading of {other} too, {place}.{column.key}")

    def list_mapping(self, name: str) -> ListMapping:
        """Reads what is said of one list."""
        place = f".{name}" if name else ""
        headings = self.values(f"columns{place}", LISTS[name], number=False)
        self.refuse_shared(f"columns{place}", LISTS[name], headings)
        return ListMapping(headings, self.fit(f"defaults{place}", LISTS[name]))


def read(command: str, path: Path | None) -> Mapping:
    """Reads a mapping file; without one all is as the keys say."""
    try:
        reading = Reading(files.get(command, path) if path else b"")
    except toml.NotToml as error:
        raise Failure(INPUT, f"{command}: not TOML: {error}, {path}") from error
    links, ends, wires = (reading.list_mapping(name) for name in LISTS)
    switches = reading.fit("switches", (LATENCY, LEAST_LATENCY, CONSTANT))
    if not reading.wrong and value_of(LEAST_LATENCY, switches) > value_of(LATENCY, switches):
        reading.wrong.append("above latency_us, switches.least_latency_us")
    if reading.wrong:
        raise Failure(INPUT, *(f"{command}: {wrong}, {path}" for wrong in sorted(reading.wrong)))
    return Mapping(links, ends, wires, value_of(LATENCY, switches), value_of(LEAST_LATENCY, switches),
                   value_of(CONSTANT, switches))
