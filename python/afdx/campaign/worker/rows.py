"""Reads the rows that afdx writes of a run, as numbers, all in one pass: there may be millions."""
from __future__ import annotations

import csv
from collections.abc import Sequence
from dataclasses import dataclass, field
from itertools import chain
from typing import Any

Number = int | None
Row = tuple[Number, ...]
Place = tuple[str, int]  # switch and port

FILTERED = ("cut", "short", "long", "foreign", "no_link", "wrong_port", "too_big")
INGRESS = ("seen", *FILTERED, "clean")
EGRESS = ("offered", "full", "aged", "sent")
HELD = ("occupied", "buffer", "occupied_at")
PORT = (*INGRESS, *(f"{priority}_{word}" for priority in ("high", "low") for word in EGRESS), *HELD)
BEGIN = {"in": 0, "high": len(INGRESS), "low": len(INGRESS) + len(EGRESS), "buffer": len(PORT) - len(HELD)}
COLUMNS = {"in": tuple(word.replace("_", "-") for word in INGRESS), "high": EGRESS, "low": EGRESS,
           "buffer": ("occupied", "buffer", "at")}
DELAYS = ("least", "greatest", "bound")
SPELL = ("policed", "least_early", "greatest_early")
ROOM = 1 << 63  # from which on the store has no room for a number


@dataclass
class Rows:
    """What the rows say. The switch is empty of a single one."""
    links: list[tuple[str, Number, Number, Number]] = field(default_factory=list)  # switch, link, passed, policed
    delays: list[tuple[str, Number, Number, Number, Number, Number, Number]] = field(default_factory=list)
    spells: list[tuple[str, Number, Number, Number, Number, Number, Number]] = field(default_factory=list)
    ports: dict[Place, list[Number]] = field(default_factory=dict)  # in the order of PORT
    spans: set[str] = field(default_factory=set)  # the switches of which a survey has the last row

    def port(self, switch: str, row: dict[str, str], kind: str) -> None:
        """Notes some of the numbers of a port."""
        values = [number(row[column]) for column in COLUMNS[kind]]
        noted = self.ports.setdefault((switch, whole(row["port"])), [None] * len(PORT))
        if noted[BEGIN[kind]] is not None:
            raise ValueError
        noted[BEGIN[kind]:BEGIN[kind] + len(values)] = values

    def delay(self, place: Place, row: dict[str, str]) -> None:
        """Notes the delays of a link, at an output port or, of a network, at the port where it leads out."""
        least, greatest, bound = (number(row[column]) for column in DELAYS)
        if bound == 0:  # of which no delay has a share
            raise ValueError
        switch, port = place
        self.delays.append((switch, whole(row["link"]), port, whole(row["sent"]), least, greatest, bound))

    def spell(self, switch: str, row: dict[str, str]) -> None:
        """Notes a spell; of a network `from` and `to` are ports."""
        begin, end = (whole(row[column]) for column in (("first", "last") if "first" in row else ("from", "to")))
        frames, least, greatest = (whole(row[column]) for column in SPELL)
        self.spells.append((switch, whole(row["link"]), begin, end, frames, least, greatest))


def rows_of(text: str) -> Rows:
    """Reads the rows of the report, of `measure` and of spells; of a network each names its switch, or its port has.

    ValueError is raised, with the line that is to blame if one is, of a text that no afdx prints.
    """
    rows = Rows()
    lines = text.splitlines()
    check_lines(lines)
    reader = csv.reader(lines)
    heading = next(reader)
    try:
        for fields in reader:
            read(rows, dict(zip(heading, fields, strict=True)))
    except (LookupError, ValueError, csv.Error) as error:
        raise ValueError(f"line {reader.line_num}: {lines[reader.line_num - 1]}") from error
    return rows


def check_lines(lines: list[str]) -> None:
    """Raises ValueError if there is none, no heading, or one with letters that are not ASCII."""
    if not lines:
        raise ValueError("nothing")
    for place, line in enumerate(lines, 1):
        if not line.isascii() or place == 1 and "kind" not in line.split(","):
            raise ValueError(f"line {place}: {line}")


def check_room(rows: Rows) -> None:
    """Raises ValueError of rows for which the store has no room: two of one key, or a number that is too large."""
    tables: list[tuple[Sequence[tuple[Any, ...]], int]] = [(rows.links, 2), (rows.delays, 3), (rows.spells, 3)]
    if any(len({row[:keys] for row in table}) < len(table) for table, keys in tables):
        raise ValueError("two rows of one link")
    numbers = chain.from_iterable(chain(
        (row[1:] for table, _ in tables for row in table),
        ((port, *values) for (_, port), values in rows.ports.items())))
    if not all(value is None or value < ROOM for value in numbers):
        raise ValueError(f"a number from {ROOM} on")


def check_whole(rows: Rows, recorded: set[str], spans: set[str]) -> None:
    """Raises ValueError of rows of which some are missing, as behind a filter that ended early: those of a run end with
    what left each port, and these switches have ports; those of a survey end with a span of each switch."""
    left = BEGIN["buffer"]  # after all that came and left
    if (not recorded <= {switch for switch, _ in rows.ports} or not spans <= rows.spans
            or any(None in values[:left] for values in rows.ports.values())):
        raise ValueError("a part of its rows alone")


def check_bounds(rows: Rows) -> None:
    """Raises ValueError of a delay without its bound, which each link of a table that is accepted has."""
    if any(greatest is not None and bound is None for *_, greatest, bound in rows.delays):
        raise ValueError("a delay without its bound")


def whole(field: str) -> int:
    """Returns the number of a field that has digits alone, as afdx writes it."""
    if not field.isdecimal():
        raise ValueError
    return int(field)


def number(field: str) -> Number:
    """Returns the number of a field, None of an empty one."""
    return whole(field) if field else None


def place_of(port: str) -> Place:
    """Returns the switch and the number of a port, as SWITCH.7."""
    switch, _, own = port.rpartition(".")
    return switch, whole(own)


def read(rows: Rows, row: dict[str, str]) -> None:
    """Reads a row by its kind; those of another kind are for others."""
    switch = row.get("switch", "")
    match row["kind"]:
        case "in" | "buffer" as kind:
            rows.port(switch, row, kind)
        case "out":
            rows.port(switch, row, row["priority"])
        case "delays":
            rows.delay((switch, whole(row["port"])), row)
        case "way":
            rows.delay(place_of(row["to"]), row)
        case "link":
            rows.links.append((switch, whole(row["link"]), whole(row["passed"]), whole(row["policed"])))
        case "spell":
            rows.spell(switch, row)
        case "span":
            rows.spans.add(switch)
