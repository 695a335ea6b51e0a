"""Reads the three lists as a network: its end systems, the cables between its switches, and its virtual links."""
import re
from collections.abc import Callable
from dataclasses import dataclass, field
from functools import partial
from pathlib import Path
from typing import Any

from afdx.icd import columns
from afdx.icd.cells import SEPARATOR, Column, one_line
from afdx.icd.columns import HEADERS, PAYLOAD, SIZE, SMALLEST
from afdx.icd.complaints import Complaints
from afdx.icd.lists import NOTE, List
from afdx.icd.mapping import Mapping
from afdx.icd.spreadsheet import Row

OF_BOTH = "networks A and B have lists of their own"
GOES_ON = "receivers without a sender: all of a link have to stand in its row, with | between them"
JOINED = re.compile(r"[;/+&\n]|\band\b")  # what may lie between receivers, and does not here


@dataclass(frozen=True)
class Port:
    """A port of a switch, with its line and the switch's own numbers for it."""
    switch: str
    number: int
    mbit: int
    buffer: int
    max_delay_us: int

    def __str__(self) -> str:
        return f"{self.switch}.{self.number}"


@dataclass(frozen=True)
class Cable:
    """A cable between two switches: a wire in each direction."""
    a: Port
    b: Port
    delay_ns: int


@dataclass(frozen=True)
class Link:
    """A virtual link, from one end system to others, by their names."""
    row: Row
    id: int
    name: str
    source: str
    targets: list[str]
    bag_ms: int
    jitter_us: int
    max_size: int
    priority: str
    police: str
    via: list[str]


@dataclass
class Network:
    """What the rows say that are sound, and which names the others have."""
    ends: dict[str, Port] = field(default_factory=dict)  # by the end system's name
    cables: list[Cable] = field(default_factory=list)
    links: list[Link] = field(default_factory=list)
    names: set[str] = field(default_factory=set)  # of end systems, those of rows that are wrong too
    switches: set[str] = field(default_factory=set)  # so too


class Once:
    """Keeps which row has something first, and complains of a later one."""

    def __init__(self) -> None:
        self.rows: dict[object, tuple[str, Row]] = {}

    def take(self, of: List, row: Row, column: Column[Any], *key: object,
             hint: Callable[[Row], str] = lambda other: "") -> None:
        """Takes it for a row, or complains, with what the hint says of the row that has it."""
        if key in self.rows:
            place, other = self.rows[key]
            of.complain(row, column, f"{place} has it too{hint(other)}")
        elif None not in key:
            self.rows[key] = (f"{of.sheet.place} line {row.line}", row)

    def same(self, *keys: object) -> str:
        """Returns the place of the row that has all of these, or nothing."""
        places = {self.rows[key][0] if key in self.rows else "" for key in keys}
        return places.pop() if len(places) == 1 else ""


class Named:
    """Keeps which cells name each switch."""

    def __init__(self) -> None:
        self.cells: dict[str, list[tuple[Row, Column[str]]]] = {}

    def add(self, row: Row, column: Column[str], switch: str) -> None:
        self.cells.setdefault(switch, []).append((row, column))

    def warn_of_lone(self, of: List, others: set[str]) -> None:
        """Warns of a switch that but one of these cells names, and that is not among the others: no link can cross it,
        so its name may be wrong."""
        for switch, cells in self.cells.items():
            if len(cells) == 1 and switch not in others:
                row, column = cells[0]
                of.warn(row, column, f"switch {switch} has this cable alone and no end system: is its name right?")


def take_switch(of: List, row: Row, column: Column[str], switch: str | None, network: Network) -> None:
    """Takes a switch's name, or complains if another one differs from it in capital letters alone: their tables would
    have one name where such letters do not count, and one of the two is wrong."""
    if switch is None or switch in network.switches:
        return
    other = {known.lower(): known for known in network.switches}.get(switch.lower())
    if other:
        of.complain(row, column, f"another switch is called {other}: capital letters have to be the same")
    else:
        network.switches.add(switch)


def one_network(of: List, row: Row, other: Row) -> str:
    """Says what to do about two rows of an end system at different switches."""
    return f", at another switch: {OF_BOTH}" if of.text(row, columns.SWITCH) != of.text(other, columns.SWITCH) else ""


def read_ends(of: List, network: Network, ports: Once) -> None:
    """Reads the end systems, each at a port of its own."""
    names = Once()
    for row in of.rows():
        name = of.cell(row, columns.END)
        names.take(of, row, columns.END, name, hint=partial(one_network, of, row))
        port = Port(of.cell(row, columns.SWITCH), of.cell(row, columns.PORT), of.cell(row, columns.MBIT),
                    of.cell(row, columns.BUFFER), of.cell(row, columns.DELAY_LIMIT))
        ports.take(of, row, columns.PORT, port.switch, port.number)
        network.names.add(name)
        take_switch(of, row, columns.SWITCH, port.switch, network)
        if of.is_sound(row):
            network.ends[name] = port
    of.warn_of_gaps(columns.BUFFER, columns.DELAY_LIMIT)


def take_ports(of: List, row: Row, a: Port, b: Port, ports: Once) -> None:
    """Takes the ports of a cable. Of one that has a row already, as that of the other direction, it complains once."""
    ends = (a.switch, a.number), (b.switch, b.number)
    same = ports.same(*ends)
    if same and ends[0] != ends[1]:
        of.complain(row, columns.SWITCH_A, f"{same} is the same cable: one row is for both directions")
        return
    ports.take(of, row, columns.PORT_A, *ends[0])
    if a.switch == b.switch is not None:
        of.complain(row, columns.SWITCH_B, "the cable leads to its own switch")
    else:
        ports.take(of, row, columns.PORT_B, *ends[1])


def read_cables(of: List, network: Network, ports: Once) -> None:
    """Reads the cables, each between ports of its own at two switches."""
    of_ends, of_cables = set(network.switches), Named()
    for row in of.rows():
        line = (of.cell(row, columns.MBIT), of.cell(row, columns.BUFFER), of.cell(row, columns.DELAY_LIMIT))
        a = Port(of.cell(row, columns.SWITCH_A), of.cell(row, columns.PORT_A), *line)
        b = Port(of.cell(row, columns.SWITCH_B), of.cell(row, columns.PORT_B), *line)
        delay = of.cell(row, columns.WIRE_DELAY)
        take_ports(of, row, a, b, ports)
        for column, switch in ((columns.SWITCH_A, a.switch), (columns.SWITCH_B, b.switch)):
            take_switch(of, row, column, switch, network)
            if switch in network.switches:
                of_cables.add(row, column, switch)
        if of.is_sound(row):
            network.cables.append(Cable(a, b, delay))
    of_cables.warn_of_lone(of, of_ends)
    of.warn_of_gaps(columns.BUFFER, columns.DELAY_LIMIT)


def size_of(of: List, row: Row) -> int:
    """Reads the largest frame of a link, which is given as such or by its UDP payload, or both ways. What the mapping
    has counts where the row has neither."""
    text = of.own if of.own(row, SIZE) or of.own(row, PAYLOAD) else of.text
    has_size, has_payload = bool(text(row, SIZE)), bool(text(row, PAYLOAD))
    if not has_size and not has_payload:
        of.complain(row, SIZE, "neither the largest frame nor its UDP payload is there")
        return 0
    if not has_payload:
        return of.cell(row, SIZE)
    payload = of.cell(row, PAYLOAD)
    frame = max(SMALLEST, payload + HEADERS) if payload is not None else None
    size = of.cell(row, SIZE) if has_size else frame
    if size is not None and frame is not None and size != frame:
        of.complain(row, SIZE, f"not the frame of the UDP payload, which has {frame} bytes")
    return size or 0


def are_ends(network: Network, texts: list[str]) -> bool:
    return all(one_line(text) in network.names for text in texts)


def hint_of(network: Network, text: str) -> str:
    """Says what has to lie between receivers, if there is something else in a text."""
    texts = JOINED.split(text)
    return ": receivers have | or , between them" if len(texts) > 1 and are_ends(network, texts) else ""


def note_of(of: List, network: Network, row: Row) -> str:
    """Says what a row of few cells may be: a note, or more receivers of the link above."""
    goes_on = not of.text(row, columns.SOURCE) and are_ends(network, SEPARATOR.split(of.text(row, columns.TARGETS)))
    return GOES_ON if goes_on else NOTE


def check_names(of: List, link: Link, network: Network) -> None:
    """Looks whether the end systems and switches of a link are there."""
    if link.source is not None and link.source not in network.names:
        of.complain(link.row, columns.SOURCE, "no such end system")
    for target, text in zip(link.targets or [], SEPARATOR.split(of.text(link.row, columns.TARGETS))):
        if target not in network.names:
            of.complain(link.row, columns.TARGETS, f"no such end system as {target}{hint_of(network, text)}")
        elif target == link.source:
            of.complain(link.row, columns.TARGETS, f"{target} would send to itself")
    for switch in set(link.via or []) - network.switches:
        of.complain(link.row, columns.VIA, f"no such switch as {switch}")


def one_row_for_all(of: List, row: Row, other: Row) -> str:
    """Says what to do about two rows of a link that differ in its receivers alone, or in nothing that is read."""
    differ = [column for column in columns.LINKS if of.text(row, column) != of.text(other, column)]
    if differ != [columns.TARGETS]:
        return "" if differ else f", the same in all that is read: {OF_BOTH}"
    return f", with another {of.heading(columns.TARGETS)}: all receivers have to stand in one row, with | between them"


def read_links(of: List, network: Network) -> None:
    """Reads the virtual links, each of its own number, between end systems that are there."""
    numbers = Once()
    of.warn_if_empty("no links: the list is its headings alone")
    for row in of.rows(partial(note_of, of, network)):
        link = Link(row, of.cell(row, columns.ID), of.cell(row, columns.NAME), of.cell(row, columns.SOURCE),
                    of.cell(row, columns.TARGETS), of.cell(row, columns.BAG), of.cell(row, columns.JITTER),
                    size_of(of, row), of.cell(row, columns.PRIORITY), of.cell(row, columns.POLICE),
                    of.cell(row, columns.VIA))
        numbers.take(of, row, columns.ID, link.id, hint=partial(one_row_for_all, of, row))
        check_names(of, link, network)
        if of.is_sound(row):
            network.links.append(link)


def lists_of(command: str, paths: list[Path], mapping: Mapping, complaints: Complaints) -> list[List]:
    """Opens the three lists, of links, end systems and cables, and ends the command if a column is missing."""
    known = [(columns.LINKS, mapping.links), (columns.ENDS, mapping.ends), (columns.WIRES, mapping.wires)]
    lists = [List(command, path, order, *known[order], complaints) for order, path in enumerate(paths)]
    given = lists[0].places.keys() | mapping.links.defaults.keys()
    if lists[0].is_there and SIZE.key not in given and PAYLOAD.key not in given:
        what = f"no such column, and no {lists[0].heading(PAYLOAD)} either: the mapping has to name one"
        lists[0].complain_of_heading(SIZE, what)
    complaints.refuse(command)
    return lists


def read(lists: list[List]) -> Network:
    """Reads the three lists. What is wrong with them goes to the complaints."""
    network, ports = Network(), Once()
    links, ends, wires = lists
    read_ends(ends, network, ports)
    read_cables(wires, network, ports)
    read_links(links, network)
    return network
