"""Says what may stand where on a command line: of a described program, for the scripts of all shells."""

import re
from collections.abc import Iterator
from dataclasses import dataclass

from described import Command, Row

FOLDER = re.compile("(the|a) folder", re.IGNORECASE)
CODE = re.compile("(the|a) code", re.IGNORECASE)


def kind_of(row: Row, value: str) -> str:
    """Says what a value is: `folders`, `files`, or `nothing` that a shell can complete.

    An argument is a file unless it is a folder or a code. The value of an option is a file only if it is called so.
    """
    if CODE.match(row.words):
        return "nothing"
    if value == "FOLDER" or FOLDER.match(row.words):
        return "folders"
    return "files" if not row.names or value == "FILE" or "." in value else "nothing"


def kinds(row: Row) -> list[str]:
    """Says what each value of an option is."""
    return [kind_of(row, value) for value in row.values]


@dataclass
class Place:
    """An argument of a command: its place, what the help calls it, and its kind."""

    number: int
    value: str
    kind: str


def places(command: Command) -> Iterator[Place]:
    """Goes through the arguments of a command that a shell can complete."""
    for number, row in enumerate(command.arguments):
        if (kind := kind_of(row, row.head)) != "nothing":
            yield Place(number, row.head.strip("<>"), kind)


@dataclass
class Step:
    """A word that leads from a command to one below it."""

    above: Command
    word: str
    below: Command


def steps(program: Command) -> list[Step]:
    """Lists the words that lead to another command."""
    return [Step(command, below.name.split()[-1], below) for command in program.whole() for below in command.commands]


@dataclass
class Awaiting:
    """An option that values follow."""

    command: Command
    name: str
    kinds: list[str]


def awaiting(program: Command) -> list[Awaiting]:
    """Lists the options that values follow."""
    rows = [(command, row) for command in program.whole() for row in command.options if row.values]
    return [Awaiting(command, name, kinds(row)) for command, row in rows for name in row.names]


def function_name(name: str) -> str:
    """Makes a name of a shell's function of a command's name."""
    return re.sub(r"\W", "_", name)
