"""Writes what fish completes."""

import re
from collections.abc import Iterator

from described import Command, Row
from places import awaiting, function_name, kinds, places, steps

SCRIPT = """\
# What fish completes after {name}; made of what its --help prints.
function {place} --description 'The command that is being written, and how many of its arguments are there'
    set --local command {name}
    set --local place 0
    set --local awaited 0
    for word in (commandline --tokenize --current-process --cut-at-cursor)[2..]
        if test $awaited -gt 0
            set awaited (math $awaited - 1)
            continue
        end
        switch $command:$word
{walk}
            case '*:-*'
            case '*'
                set place (math $place + 1)
        end
    end
    echo $command:$place
end
complete --command {name} --no-files
{answers}
"""
FOLDERS = "--arguments '(__fish_complete_directories)'"
ARGUMENTS = {"files": "--force-files", "folders": FOLDERS}
VALUES = {"files": "--require-parameter --force-files", "folders": f"--exclusive {FOLDERS}", "nothing": "--exclusive"}


def quoted(text: str) -> str:
    return "'" + re.sub(r"(['\\])", r"\\\1", text) + "'"


def walk(program: Command) -> Iterator[str]:
    """Says what a word before the cursor leads to: another command, or values of an option."""
    for step in steps(program):
        yield f"            case {quoted(f'{step.above.name}:{step.word}')}"
        yield f"                set command {quoted(step.below.name)}"
    for option in awaiting(program):
        yield f"            case {quoted(f'{option.command.name}:{option.name}')}"
        yield f"                set awaited {len(option.kinds)}"


def option(row: Row) -> str:
    """Writes an option and what follows it. fish knows of one value alone; of two, the second is not completed."""
    names = [f"--long-option {name[2:]}" if name[1] == "-" else f"--short-option {name[1:]}" for name in row.names]
    return " ".join([*names, *(VALUES[kind] for kind in kinds(row)[:1])])


def rules(command: Command, here: str) -> Iterator[tuple[str, str, str]]:
    """Says what may come in a command: under which condition, what, and what the help says of it."""
    for row in command.rows:
        yield f"test {here} = '{command.name}:0'", f"--arguments {row.head}", row.words
    for row in command.options:
        yield f"string match --quiet '{command.name}:*' {here}", option(row), row.words
    for place in places(command):
        yield f"test {here} = '{command.name}:{place.number}'", ARGUMENTS[place.kind], place.value


def script(program: Command) -> str:
    """Makes the script for fish."""
    place = f"__{function_name(program.name)}_place"
    found = [rule for command in program.whole() for rule in rules(command, f"({place})")]
    return SCRIPT.format(
        name=program.name,
        place=place,
        walk="\n".join(walk(program)),
        answers="\n".join(
            f"complete --command {program.name} --condition {quoted(condition)} {what} --description {quoted(words)}"
            for condition, what, words in found))
