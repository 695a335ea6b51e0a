"""Keeps what the page needs to know of a table that no command of the program prints."""
from dataclasses import dataclass
from typing import Any


@dataclass(frozen=True)
class Link:
    gap: int  # ns
    priority: str


@dataclass(frozen=True)
class Table:
    latency: int  # ns
    ports: list[int]
    links: dict[int, Link]


def table_of(content: dict[str, Any]) -> Table:
    """Returns the table of a text that the program has accepted as one; of another text KeyError, TypeError or
    ValueError may be raised."""
    links = {int(row["id"]): Link(int(row["bag_ms"]) * 1_000_000, str(row["priority"]))
             for row in content.get("link", [])}
    ports = [int(row["id"]) for row in content.get("port", [])]
    return Table(int(content.get("latency_us", 0)) * 1000, ports, links)
