"""Writes the tables of a network's switches and its network file, the names of links and ports beside their rows."""
from collections.abc import Iterable
from dataclasses import dataclass, field
from itertools import chain
from typing import TypeAlias

import tomlkit
from tomlkit import TOMLDocument
from tomlkit.items import Item, Table as Section

from afdx.icd.mapping import Mapping
from afdx.icd.network import Cable, Link, Network, Port
from afdx.icd.routes import Hop

Value: TypeAlias = int | str | Item
MADE = "Written by afdx-icd: what is changed here by hand is lost when it runs again."


@dataclass
class Row:
    """A link at one switch, with its section of the table."""
    link: Link
    section: Section

    def give(self, jitter_us: int) -> None:
        self.section["jitter_us"] = jitter_us


@dataclass
class Table:
    """A switch's ports, each with its name, and the rows of its links, both by number."""
    ports: dict[int, tuple[str, Port]] = field(default_factory=dict)
    rows: dict[int, Row] = field(default_factory=dict)
    document: TOMLDocument = field(default_factory=tomlkit.document)
    least_latency_us: int = 0

    def names(self, numbers: Iterable[int]) -> str:
        return ", ".join(self.ports[number][0] for number in numbers)


def section(name: str, values: dict[str, Value]) -> Section:
    """Returns a section with these values, and a name beside its heading if there is one."""
    made = tomlkit.table()
    for key, value in values.items():
        made.add(key, value)
    if name:
        made.comment(name)
    return made


def port_section(name: str, port: Port) -> Section:
    return section(name, {
        "id": port.number, "mbit": port.mbit, "buffer": port.buffer, "max_delay_us": port.max_delay_us})


def row_section(table: Table, link: Link, hop: Hop) -> Section:
    """Returns a link's row with its sender's jitter, the names of its ports beside their numbers."""
    source = tomlkit.item(hop.source).comment(table.names([hop.source]))
    targets = tomlkit.item(hop.targets).comment(table.names(hop.targets))
    return section(link.name, {
        "id": link.id, "from": source, "to": targets, "bag_ms": link.bag_ms, "jitter_us": link.jitter_us,
        "max_size": link.max_size, "priority": link.priority, "police": link.police})


def document(top: dict[str, int | str], sections: dict[str, list[Section]]) -> TOMLDocument:
    """Returns a file that says who made it, the values at its top, and its sections."""
    made = tomlkit.document()
    made.add(tomlkit.comment(MADE))
    for key, value in top.items():
        made.add(key, tomlkit.item(value))
    for key, members in sections.items():
        array = tomlkit.aot()
        for member in members:
            array.append(member)
        made.add(key, array)
    return made


def named_ports(network: Network) -> list[tuple[str, Port]]:
    """Returns all ports by number, each with the name of what is at it."""
    ports = list(network.ends.items())
    for cable in network.cables:
        ports += [(f"cable to {cable.b}", cable.a), (f"cable to {cable.a}", cable.b)]
    return sorted(ports, key=lambda named: named[1].number)


def tables_of(network: Network, hops: dict[int, list[Hop]], mapping: Mapping) -> dict[str, Table]:
    """Returns the table of each switch, by name."""
    tables = {switch: Table() for switch in sorted(network.switches)}
    for name, port in named_ports(network):
        tables[port.switch].ports[port.number] = (name, port)
    for link in sorted(network.links, key=lambda link: link.id):
        for hop in hops[link.id]:
            table = tables[hop.switch]
            table.rows[link.id] = Row(link, row_section(table, link, hop))
    for table in tables.values():
        table.least_latency_us = mapping.least_latency_us
        table.document = document({"version": 3, "constant": mapping.constant, "latency_us": mapping.latency_us}, {
            "port": [port_section(name, port) for name, port in table.ports.values()],
            "link": [row.section for row in table.rows.values()]})
    return tables


def switch_section(name: str, table: Table) -> Section:
    """Returns the section of a switch in the network file. Its least latency is said if it is known to be above 0."""
    values: dict[str, Value] = {"name": name, "table": f"{name}.toml"}
    if table.least_latency_us:
        values["least_latency_us"] = table.least_latency_us
    return section("", values)


def network_document(tables: dict[str, Table], cables: Iterable[Cable]) -> TOMLDocument:
    """Returns the network file: the switches, and both wires of each cable, by switch and port."""
    both = [[(cable.a, cable.b, cable.delay_ns), (cable.b, cable.a, cable.delay_ns)] for cable in cables]
    wires = sorted(chain(*both), key=lambda wire: (wire[0].switch, wire[0].number))
    return document({"version": 1}, {
        "switch": [switch_section(name, table) for name, table in tables.items()],
        "wire": [section("", {"from": str(start), "to": str(end), "delay_ns": delay})
                 for start, end, delay in wires]})


def texts_of(tables: dict[str, Table], network: Network) -> dict[str, bytes]:
    """Writes all files, by their names. The network file comes last, since it names the others."""
    documents = {f"{switch}.toml": table.document for switch, table in tables.items()}
    documents["network.toml"] = network_document(tables, network.cables)
    return {name: tomlkit.dumps(document).encode() for name, document in documents.items()}
