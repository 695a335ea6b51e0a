"""Keeps what the page needs to know of a network file."""
from dataclasses import dataclass
from pathlib import Path
from typing import Any


@dataclass(frozen=True, order=True)
class Port:
    switch: str
    number: int

    def __str__(self) -> str:
        return f"{self.switch}.{self.number}"


def port_of(text: str) -> Port:
    """Returns the port of a text such as `A.3`."""
    switch, _, number = text.partition(".")
    return Port(switch, int(number))


@dataclass(frozen=True)
class Wire:
    start: Port
    end: Port
    delay: int  # ns
    down: bool = False  # nothing comes over it, as it or a switch at one of its ends is down


@dataclass(frozen=True)
class Layout:
    tables: dict[str, Path]  # of each switch the file of its table, in the order of the network file
    wires: list[Wire]
    down: frozenset[str] = frozenset()  # the switches at which nothing comes in

    def into(self) -> dict[Port, Wire]:
        """Returns the wire to each ingress port that has one."""
        return {wire.end: wire for wire in self.wires}

    def out_of(self) -> dict[Port, Wire]:
        """Returns the wire from each output port that has one."""
        return {wire.start: wire for wire in self.wires}

    def going_on(self) -> dict[Port, Wire]:
        """Returns the wire from each output port that has one which is not down."""
        return {wire.start: wire for wire in self.wires if not wire.down}


def wire_of(row: dict[str, Any], down: frozenset[str]) -> Wire:
    """Returns a wire, which is down if a switch at one of its ends is."""
    start, end = port_of(row["from"]), port_of(row["to"])
    said = bool(row.get("down", False))
    return Wire(start, end, int(row.get("delay_ns", 0)), said or not down.isdisjoint((start.switch, end.switch)))


def layout_of(content: dict[str, Any], folder: Path) -> Layout:
    """Returns the network of a text that the program has accepted as one, in a file of this folder; of another text
    KeyError, TypeError, ValueError or AttributeError may be raised."""
    switches = content.get("switch", [])
    tables = {str(row["name"]): folder / str(row["table"]) for row in switches}
    down = frozenset(str(row["name"]) for row in switches if row.get("down", False))
    wires = [wire_of(row, down) for row in content.get("wire", [])]
    return Layout(tables, wires, down)
