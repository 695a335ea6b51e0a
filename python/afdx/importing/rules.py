"""Reads the rules: which frames of which recordings come to which port, and what is mended on the way."""
import re
from collections.abc import Callable
from dataclasses import dataclass, field
from typing import Any

from afdx import toml
from afdx.recordings.columns import SECOND

PORT = re.compile(r"(?:[A-Za-z0-9_-][A-Za-z0-9._-]*/){0,8}port-(?:[1-9]|1[0-9]|2[0-4])")
NETWORKS = {"A": 0x20, "B": 0x40}
MOST_OFFSET = 4_294_967_295 * SECOND
MOST_DRIFT = 100_000_000
MOST_WINDOW = 60_000


@dataclass(frozen=True)
class Source:
    """Says which frames of which recordings are taken, for which ports, and what their stamps lack."""
    file: str
    interface: str | int | None = None
    to: str | None = None
    end_systems: dict[str, str] = field(default_factory=dict)
    network: str | None = None
    fcs: bool | str = "auto"
    tags: bool = False
    stamps: str = "end"
    mbit: int | None = None
    offset_ns: int = 0
    drift_ppb: int = 0
    drift_from_ns: int | None = None  # the stamp from which the drift counts

    @property
    def tick(self) -> int:
        """Returns by how many ns a stamp is made later for each byte of its frame."""
        return 8000 // self.mbit if self.stamps == "start" and self.mbit else 0

    @property
    def moves(self) -> bool:
        """Returns whether stamps are changed."""
        return self.tick != 0 or self.offset_ns != 0 or self.drift_ppb != 0

    @property
    def ports(self) -> list[str]:
        return [self.to] if self.to else list(self.end_systems.values())


@dataclass(frozen=True)
class Rules:
    """Are the sources, and what is said once for all of them."""
    sources: list[Source]
    window_ms: int = 1000
    silent: list[str] = field(default_factory=list)

    @property
    def ports(self) -> list[str]:
        """Returns all ports that get a capture, by folder and number."""
        named = {port for source in self.sources for port in source.ports} | set(self.silent)
        return sorted(named, key=lambda port: (port.rpartition("/")[0], int(port.rpartition("-")[2])))


class RulesFault(Exception):
    """Is raised for rules that cannot be followed, with all that is wrong with them."""

    def __init__(self, faults: list[str]) -> None:
        super().__init__(*faults)
        self.faults = faults


def is_whole(least: int, most: int) -> Callable[[Any], bool]:
    return lambda value: type(value) is int and least <= value <= most


def is_port(value: Any) -> bool:
    return isinstance(value, str) and PORT.fullmatch(value) is not None


def is_pattern(value: Any) -> bool:
    return (isinstance(value, str) and value != "" and "\0" not in value and not value.startswith("/")
            and ".." not in value.split("/"))


def is_end_systems(value: Any) -> bool:
    return isinstance(value, dict) and len(value) > 0 and all(
        re.fullmatch("[0-9]{1,5}", key) and int(key) <= 65_535 and is_port(port) for key, port in value.items()
    ) and len(set(map(int, value))) == len(value)


def is_tables(value: Any) -> bool:
    return isinstance(value, list) and all(isinstance(one, dict) for one in value)


A_PORT = 'a port from 1 to 24, as "port-1" or "SW1/port-1"'
OF_SOURCES: dict[str, tuple[Callable[[Any], bool], str]] = {
    "file": (is_pattern, "the name of a file in RAW, or a pattern of names"),
    "interface": (lambda value: type(value) is int and value >= 0 or isinstance(value, str), "a name or a number"),
    "to": (is_port, A_PORT),
    "end_systems": (is_end_systems, f"a table of end systems' numbers, 0 to 65535, each once, with {A_PORT}"),
    "network": (lambda value: isinstance(value, str) and value in NETWORKS, '"A" or "B"'),
    "fcs": (lambda value: isinstance(value, bool) or value == "auto", 'true, false or "auto"'),
    "tags": (lambda value: isinstance(value, bool), "true or false"),
    "stamps": (lambda value: value in ("start", "end"), '"start" or "end"'),
    "mbit": (lambda value: type(value) is int and value in (10, 100, 1000), "10, 100 or 1000"),
    "offset_ns": (is_whole(-MOST_OFFSET, MOST_OFFSET), "a whole number, at most 136 years"),
    "drift_ppb": (is_whole(-MOST_DRIFT, MOST_DRIFT), "a whole number, at most 100000000"),
    "drift_from_ns": (is_whole(0, MOST_OFFSET), "a stamp, in ns since 1970"),
}
OF_THE_TOP: dict[str, tuple[Callable[[Any], bool], str]] = {
    "source": (is_tables, "an array of tables, [[source]]"),
    "window_ms": (is_whole(0, MOST_WINDOW), f"a whole number, 0 to {MOST_WINDOW}"),
    "silent": (lambda value: isinstance(value, list) and all(map(is_port, value)),
               f"an array, of which each is {A_PORT}"),
}


def faults_of(table: dict[str, Any], keys: dict[str, tuple[Callable[[Any], bool], str]], place: str) -> list[str]:
    """Returns what is wrong with the values of a table, each by itself."""
    unknown = [f"{place}: unknown key {toml.shown(key)}" for key in table if key not in keys]
    wrong = [f"{place}: {key} has to be {meaning}" for key, (is_sound, meaning) in keys.items()
             if key in table and not is_sound(table[key])]
    return unknown + wrong


def faults_of_source(table: dict[str, Any], place: str) -> list[str]:
    """Returns what is wrong with a source."""
    faults = faults_of(table, OF_SOURCES, place)
    if "file" not in table:
        faults.append(f"{place}: file is missing")
    if ("to" in table) == ("end_systems" in table):
        faults.append(f"{place}: needs either to or end_systems")
    if table.get("stamps") == "start" and "mbit" not in table:
        faults.append(f"{place}: mbit is missing, by which stamps of the frames' starts are moved")
    if "mbit" in table and "stamps" not in table:
        faults.append(f'{place}: mbit counts only with stamps of the frames\' starts: stamps = "start" is missing')
    if "drift_from_ns" in table and "drift_ppb" not in table:
        faults.append(f"{place}: drift_ppb is missing, which counts from drift_from_ns")
    return faults


def faults_of_silent(rules: Rules) -> list[str]:
    """Returns which ports are said to be silent, and get frames of a source."""
    return [f"top: silent names {port}, which source {number} names too"
            for number, source in enumerate(rules.sources, 1)
            for port in sorted(set(source.ports) & set(rules.silent))]


def rules_of(text: bytes) -> Rules:
    """Reads the rules. Raises RulesFault with all that is wrong; of ports that are silent and get frames only if
    nothing else is."""
    try:
        top = toml.content(text)
    except toml.NotToml as error:
        raise RulesFault([f"no TOML: {error}"]) from error
    faults = faults_of(top, OF_THE_TOP, "top")
    tables = top.get("source", [])
    if is_tables(tables):
        faults += [] if tables else ["top: no source"]
        faults += [fault for number, table in enumerate(tables, 1)
                   for fault in faults_of_source(table, f"source {number}")]
    if faults:
        raise RulesFault(faults)
    of_all = {key: value for key, value in top.items() if key != "source"}
    rules = Rules([Source(**table) for table in tables], **of_all)
    if faults := faults_of_silent(rules):
        raise RulesFault(faults)
    return rules
