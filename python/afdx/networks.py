"""Tells network files from tables."""
from typing import Any


def is_network(content: dict[str, Any]) -> bool:
    """Says whether a text is a network file and not a table: it alone has switches or wires."""
    return "switch" in content or "wire" in content
