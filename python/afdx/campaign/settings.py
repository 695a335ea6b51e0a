"""Reads the campaign file, CAMPAIGN.toml."""
import string
import tempfile
from collections.abc import Mapping
from dataclasses import dataclass
from pathlib import Path
from typing import Any, TypeVar

from afdx import toml
from afdx.campaign.failures import COMMAND, failure
from afdx.campaign.worker.questions import ASKS, KEEPS
from afdx.failure import INPUT
from afdx.program import find_program

IDENTITIES = ("stat", "content")
REQUIRED = object()
MOST = 10**9  # of a limit: more seconds than a timer takes, or no number, would end a worker
WORDS = {str: "text", bool: "truth value", int: "whole number", float: "number", list: "list", dict: "section"}
NAME = set(f"{string.ascii_letters}{string.digits}-_.")  # what the name of a table may have

Kind = TypeVar("Kind")


@dataclass(frozen=True)
class Configured:
    """A [[table]] or a [[network]]."""
    name: str
    file: Path
    network: bool
    unchecked: bool


@dataclass(frozen=True)
class Limits:
    """What a task may take."""
    tries: int
    timeout: float  # seconds of a child
    memory: float  # times the bytes of the recording
    patience: float  # seconds that an engine may be away


@dataclass(frozen=True)
class Campaign:
    """What a campaign file says, with its paths made absolute, but for the patterns: a folder may have their signs."""
    file: Path
    program: str
    recordings: tuple[str, ...]  # patterns of folders, beside the file unless they begin with /
    root: Path
    ask: str
    keep: str
    by_content: bool
    scratch: str
    tables: tuple[Configured, ...]
    limits: Limits


class Fault(Exception):
    """What is wrong with a campaign file, and where."""


class Section:
    """A table of the file, whose keys are taken one by one; what is left is unknown."""

    def __init__(self, values: Mapping[str, Any], place: str) -> None:
        self.values, self.place = dict(values), place

    def fail(self, what: str) -> Fault:
        """Makes the fault of this place."""
        return Fault(f"{what}, {self.place}")

    def take(self, key: str, kind: type[Kind], default: object = REQUIRED) -> Kind:
        """Takes the value of a key; a whole number is taken for a fraction."""
        value = self.values.pop(key, default)
        if value is REQUIRED:
            raise self.fail(f"no key {key}")
        if kind is float and type(value) is int and abs(value) <= MOST:
            value = float(value)
        if type(value) is not kind:
            raise self.fail(f"{key} is no {WORDS[kind]}")
        return value

    def take_path(self, key: str, default: object = REQUIRED) -> str:
        """Takes a path."""
        return self.checked(self.take(key, str, default), key)

    def checked(self, path: str, key: str) -> str:
        """Returns a path or a pattern, if it may be one."""
        if not path or "\0" in path:
            raise self.fail(f"{key} is empty" if not path else f"a NUL in {key}")
        return path

    def take_one_of(self, key: str, words: tuple[str, ...]) -> str:
        """Takes one of these words, the first by default."""
        word = self.take(key, str, words[0])
        if word not in words:
            raise self.fail(f"{key} is none of {', '.join(words)}")
        return word

    def take_above_zero(self, key: str, kind: type[Kind], default: Kind) -> Kind:
        """Takes a number above 0."""
        number = self.take(key, kind, default)
        if not 0 < number <= MOST:  # type: ignore[operator]
            raise self.fail(f"{key} is no number above 0 and at most {MOST}")
        return number

    def take_sections(self, key: str) -> "list[Section]":
        """Takes the sections [[key]]."""
        rows = self.take(key, list, [])
        if not all(isinstance(row, dict) for row in rows):
            raise self.fail(f"{key} is no [[{key}]]")
        return [Section(row, f"[[{key}]] {number}") for number, row in enumerate(rows, 1)]

    def end(self) -> None:
        """Refuses keys that are left."""
        for key in self.values:
            raise self.fail(f"unknown key {toml.shown(key)}")


def read_campaign(path: Path) -> Campaign:
    """Reads a campaign file; its paths are beside it unless they begin with /."""
    try:
        return campaign_of(Section(toml.read(COMMAND, path), "top"), path.resolve())
    except Fault as fault:
        raise failure(INPUT, f"{path}: {fault}") from fault


def campaign_of(top: Section, path: Path) -> Campaign:
    """Returns what the sections of the file say."""
    folder = path.parent
    program = program_of(top.take_path("program") if "program" in top.values else "", folder)
    if not program:
        raise top.fail("no key program, and no program afdx is on the path")
    recordings = top.take("recordings", list)
    if not recordings or not all(isinstance(pattern, str) for pattern in recordings):
        raise top.fail("recordings is no list of patterns")
    for pattern in recordings:
        top.checked(pattern, "a pattern in recordings")
    campaign = Campaign(
        file=path, program=program,
        recordings=tuple(recordings), root=folder / top.take_path("root"),
        ask=top.take_one_of("ask", ASKS), keep=top.take_one_of("keep", KEEPS),
        by_content=top.take_one_of("identity", IDENTITIES) == "content",
        scratch=str(folder / top.take_path("scratch", tempfile.gettempdir())),
        tables=tables_of(top, folder), limits=limits_of(top))
    top.end()
    if campaign.ask == "survey" and campaign.keep != "none":
        raise top.fail("keep needs ask = \"run\" or \"trace\": a survey puts nothing")
    return campaign


def program_of(named: str, folder: Path) -> str:
    """Returns the program that the file names, beside it if there is a / in its name; else the one that is found, whose
    name is of the folder where the command was started."""
    found = named or find_program() or ""
    return str((folder if named else Path.cwd()) / found) if "/" in found else found


def tables_of(top: Section, folder: Path) -> tuple[Configured, ...]:
    """Returns the tables and networks, whose names are different."""
    found = [(section, kind == "network") for kind in ("table", "network") for section in top.take_sections(kind)]
    tables: list[Configured] = []
    for section, network in found:
        name, file = section.take("name", str), folder / section.take_path("file")
        unchecked = section.take("unchecked", bool, False)
        section.end()
        if not name or not set(name) <= NAME or name.startswith("."):
            raise section.fail("name has other signs than letters, digits, - _ and .")
        if name in [table.name for table in tables]:
            raise section.fail(f"name {name} is taken")
        tables.append(Configured(name, file, network, unchecked))
    if not tables:
        raise top.fail("no [[table]] and no [[network]]")
    return tuple(tables)


def limits_of(top: Section) -> Limits:
    """Returns the limits, each with a default."""
    section = Section(top.take("limits", dict, {}), "[limits]")
    limits = Limits(section.take_above_zero("tries", int, 3), section.take_above_zero("timeout_s", float, 36000.0),
                    section.take_above_zero("memory", float, 4.0), section.take_above_zero("patience_s", float, 60.0))
    section.end()
    return limits
