"""Writes what zsh completes."""

import re
import shlex
from collections.abc import Iterator

from described import Command
from places import function_name, kinds, places

ACTIONS = {"files": "_files", "folders": "_files -/", "nothing": " "}
BELOW = """\
    [[ $state == arguments ]] || return
    case $line[1] in
{commands}
    esac
"""


def escaped(text: str) -> str:
    """Writes a text as `_arguments` reads it."""
    return re.sub(r"([][:\\])", r"\\\1", text)


def options(command: Command) -> Iterator[str]:
    for row in command.options:
        values = "".join(f":{escaped(value)}:{ACTIONS[kind]}" for value, kind in zip(row.values, kinds(row)))
        for name in row.names:
            yield f"({' '.join(row.names)}){name}[{escaped(row.words)}]{values}"


def arguments(command: Command) -> Iterator[str]:
    """Writes what is no option: the commands below with what each does, or the arguments."""
    for place in places(command):
        yield f"{place.number + 1}:{escaped(place.value)}:{ACTIONS[place.kind]}"
    if command.rows:
        words = " ".join(f"{row.head}\\:{shlex.quote(escaped(row.words))}" for row in command.rows)
        yield f"1:command:(({words}))"
        yield "*::argument:->arguments"


def function(command: Command) -> str:
    """Makes the function that completes a command."""
    specs = [shlex.quote(spec) for spec in (*options(command), *arguments(command))]
    body = " \\\n".join(["    _arguments -C", *(f"        {spec}" for spec in specs)])
    names = [(below.name.split()[-1], function_name(below.name)) for below in command.commands]
    more = BELOW.format(commands="\n".join(f"    {word}) _{name} ;;" for word, name in names)) if names else ""
    return f"_{function_name(command.name)}() {{\n    local curcontext=$curcontext state line\n{body}\n{more}}}\n"


def script(program: Command) -> str:
    """Makes the script for zsh."""
    head = f"#compdef {program.name}\n# What zsh completes after {program.name}; made of what its --help prints.\n"
    functions = [function(command) for command in program.whole()]
    return "\n".join([head, *functions, f'_{function_name(program.name)} "$@"\n'])
