"""A plain model of how a table is refused, written from docs/use/FORMATS.md and from nothing else.

Faults are looked for in the order that the page has ("Refusals, in the order in which they are looked for"). What a
table that is in order leads to, model.py says.
"""
import re
from collections.abc import Container
from typing import Any, NoReturn

import model
from toml_reading import Tree

MOST_PORTS, MOST_LINKS = 24, 4096
LATENCIES = range(101)
PORTS = range(1, 25)
VALUES: dict[str, Container[Any]] = {
    "buffer": range(16_777_217), "max_delay_us": range(1, 500_001), "bag_ms": [1, 2, 4, 8, 16, 32, 64, 128],
    "jitter_us": range(10_001), "max_size": range(64, 1519), "priority": ["high", "low"], "police": ["byte", "frame"]}
PORT_KEYS = ["id", "mbit", "buffer", "max_delay_us"]
LINK_KEYS = ["id", "from", "to", "bag_ms", "jitter_us", "max_size", "priority"]
TEXTS = {"priority", "police"}


def refuse(fault: str, *places: str) -> NoReturn:
    raise model.Refused(", ".join([f"afdx: table {fault}", *places]), 3)


def known(place: str, members: Tree, keys: list[str]) -> None:
    if not set(members) <= set(keys):
        refuse("C3 UnknownKey", place)


def value(place: str, members: Tree, key: str, values: Container[Any]) -> Any:
    """Gives the value of a required key; a truth value is no number."""
    if key not in members:
        refuse("C4 MissingKey", place, key)
    if type(members[key]) is not (str if key in TEXTS else int):
        refuse("C5 Kind", place, key)
    if members[key] not in values:
        refuse("C6 Range", place, key)
    return members[key]


def constant(members: Tree) -> None:
    text = members.get("constant", "03000000")
    if type(text) is not str:
        refuse("C5 Kind", "top", "constant")
    if not re.fullmatch("[0-9A-Fa-f]{8}", text) or int(text[:2], 16) % 4 != 3:
        refuse("C7 Constant")


def rows(members: Tree, key: str) -> list[Tree]:
    """Gives an array of tables."""
    found = members.get(key, [])
    if type(found) is not list or any(type(row) is not dict for row in found):
        refuse("C5 Kind", "top", key)
    return found


def top(members: Tree) -> tuple[int, list[Tree], list[Tree]]:
    """Gives the version, the ports and the links."""
    known("top", members, ["version", "constant", "latency_us", "port", "link"])
    version = value("top", members, "version", range(1, 4)) if "version" in members else 1
    if "latency_us" in members and version < 3:
        refuse("C3 UnknownKey", "top")
    constant(members)
    if "latency_us" in members:
        value("top", members, "latency_us", LATENCIES)
    ports, links = rows(members, "port"), rows(members, "link")
    if len(ports) > MOST_PORTS:
        refuse("C14 TooMany", "port")
    if len(links) > MOST_LINKS:
        refuse("C14 TooMany", "link")
    return version, ports, links


def port(place: str, members: Tree, version: int, before: set[int]) -> None:
    """Refuses a port, or adds its number to those before it."""
    known(place, members, PORT_KEYS)
    number = value(place, members, "id", PORTS)
    value(place, members, "mbit", [10, 100, 1000] if version == 3 else [10, 100])
    for key in PORT_KEYS[2:]:
        value(place, members, key, VALUES[key])
    if number in before:
        refuse("C8 TwicePort", place)
    before.add(number)


def targets(place: str, members: Tree) -> list[int]:
    """Gives the output ports."""
    if "to" not in members:
        refuse("C4 MissingKey", place, "to")
    found = members["to"]
    if type(found) is not list or any(type(number) is not int for number in found):
        refuse("C5 Kind", place, "to")
    if any(number not in PORTS for number in found):
        refuse("C6 Range", place, "to")
    return found


def link(place: str, members: Tree, version: int, ports: set[int], before: set[int]) -> None:
    """Refuses a link, or adds its number to those before it."""
    known(place, members, LINK_KEYS + (["police"] if version > 1 else []))
    number, source = value(place, members, "id", range(65_536)), value(place, members, "from", PORTS)
    to = targets(place, members)
    for key in LINK_KEYS[3:] + (["police"] if "police" in members else []):
        value(place, members, key, VALUES[key])
    if number in before:
        refuse("C9 TwiceLink", place)
    before.add(number)
    if source not in ports:
        refuse("C10 NoSuchPort", place)
    if not to:
        refuse("C11 ToEmpty", place)
    for at, target in enumerate(to):
        if target not in ports:
            refuse("C10 NoSuchPort", place)
        if target == source:
            refuse("C13 ToOwnPort", place)
        if target in to[:at]:
            refuse("C12 ToTwice", place)


def table_in(tree: Tree) -> Any:
    """Gives the table that the tree of a text says, a `model.Table`.

    Raises `model.Refused` with its first fault.
    """
    version, ports, links = top(tree)
    numbers: set[int] = set()
    for place, members in enumerate(ports, 1):
        port(f"port {place}", members, version, numbers)
    of_links: set[int] = set()
    for place, members in enumerate(links, 1):
        link(f"link {place}", members, version, numbers, of_links)
    return model.table_in(tree)
