"""Takes the rows of tables and network files as facts. The program has read these files before, so they are sound."""
from typing import Any

from afdx.diff.facts import Facts, Place

PORT = ("mbit", "buffer", "max_delay_us")
LINK = ("from", "to", "bag_ms", "jitter_us", "max_size", "priority", "police")


def text_of(value: Any) -> str:
    """Writes a value; ports in their order, since a table means the same by any."""
    return " ".join(map(str, sorted(value))) if isinstance(value, list) else str(value)


def table_facts(table: dict[str, Any], switch: str = "") -> Facts:
    """Returns the rows of a table, and what stands at its top, with what a missing key stands for."""
    top = {"constant": table.get("constant", "03000000").lower(), "latency_us": str(table.get("latency_us", 0))}
    facts = {Place(switch, "table", ""): top}
    for port in table.get("port", []):
        facts[Place(switch, "port", str(port["id"]))] = {key: text_of(port[key]) for key in PORT}
    for link in table.get("link", []):
        whole = {"police": "byte"} | link
        facts[Place(switch, "link", str(link["id"]))] = {key: text_of(whole[key]) for key in LINK}
    return facts


def truth_of(row: dict[str, Any], key: str) -> str:
    """Writes an optional truth value."""
    return "true" if row.get(key) else "false"


def network_facts(network: dict[str, Any]) -> Facts:
    """Returns the top, the switches and the wires of a network file. Where its tables lie is no fact."""
    facts: Facts = {Place("", "network", ""): {"one_line": truth_of(network, "one_line")}}
    for switch in network.get("switch", []):
        facts[Place("", "switch", switch["name"])] = {"least_latency_us": str(switch.get("least_latency_us", 0)),
                                                      "down": truth_of(switch, "down")}
    for wire in network.get("wire", []):
        facts[Place("", "wire", wire["from"])] = {"to": wire["to"], "delay_ns": str(wire.get("delay_ns", 0)),
                                                  "down": truth_of(wire, "down")}
    return facts
