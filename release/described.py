"""Reads what a program's --help prints, of `clap` or of argparse, into a description of its command line."""

import os
import re
import subprocess
from collections.abc import Iterator
from dataclasses import dataclass, field
from pathlib import Path

WIDE = {**os.environ, "COLUMNS": "1000", "LC_ALL": "C.UTF-8"}  # argparse then breaks no line
ROW = re.compile(r" {2,}(?P<head>\S+(?: \S+)*)(?: {2,}(?P<words>.*))?")
NESTED = 4  # the indent at which argparse lists commands


@dataclass
class Row:
    """A command, an argument or an option: how it is written, and what the help says of it."""

    head: str
    words: str = ""

    @property
    def names(self) -> list[str]:
        """Returns the names of an option, the short one first."""
        return re.findall(r"(?:^|, )(-{1,2}[\w-]+)", self.head)

    @property
    def values(self) -> list[str]:
        """Returns what the help calls the values of an argument or an option."""
        last = self.head.split(", ")[-1]
        return [value.strip("<>") for value in last.split() if not value.startswith("-")]


@dataclass
class Command:
    """What the help of a command says."""

    name: str  # with the program's own, as `afdx network check`
    usage: list[str] = field(default_factory=list)
    texts: list[str] = field(default_factory=list)  # its paragraphs; the first says what it does
    arguments: list[Row] = field(default_factory=list)
    options: list[Row] = field(default_factory=list)
    rows: list[Row] = field(default_factory=list)  # its own commands, in the help's order
    commands: list["Command"] = field(default_factory=list)  # those of them that have a help

    @property
    def page(self) -> str:
        """Returns the name of its man page."""
        return self.name.replace(" ", "-")

    def whole(self) -> Iterator["Command"]:
        """Goes through it and all commands below it."""
        yield self
        for command in self.commands:
            yield from command.whole()


def note_row(command: Command, section: str, indent: int, row: Row) -> None:
    """Notes a row of a section of the help."""
    if row.head.startswith("-"):
        command.options.append(row)
    elif section == "Commands" or indent == NESTED:
        command.rows.append(row)
    else:
        command.arguments.append(row)


def note_section(command: Command, section: str, lines: list[str]) -> None:
    """Notes the rows of a section. What a row says may stand on the line below it, further in."""
    last = Row("")
    for line in lines:
        indent = len(line) - len(line.lstrip())
        if indent > NESTED and not line.lstrip().startswith("-"):
            last.words = f"{last.words} {line.strip()}".strip()
        elif found := ROW.fullmatch(line):
            last = Row(found["head"], found["words"] or "")
            note_row(command, section, indent, last)


def command_of(name: str, text: str) -> Command:
    """Reads a help. The commands below are left to `described`."""
    command = Command(name)
    for block in text.strip("\n").split("\n\n"):
        first, *lines = block.splitlines()
        if first.lower().startswith("usage: "):
            command.usage = [first[len("usage: "):], *(line.strip() for line in lines)]
        elif first.endswith(":") and lines and all(line.startswith("  ") for line in lines):
            note_section(command, first.removesuffix(":"), lines)
        else:
            command.texts.append(" ".join(block.split()))
    nested = {row.head for row in command.rows}
    command.arguments = [row for row in command.arguments if row.words or not nested]
    return command


def described(program: Path, *words: str) -> Command:
    """Asks a program for its help, and for that of all commands below."""
    said = subprocess.run([program, *words, "--help"], capture_output=True, text=True, check=True, env=WIDE).stdout
    command = command_of(" ".join((program.name, *words)), said)
    below = [row.head for row in command.rows if row.head != "help"]
    command.commands = [described(program, *words, name) for name in below]
    return command
