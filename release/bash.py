"""Writes what bash completes."""

import shlex
from collections.abc import Iterator

from described import Command
from places import awaiting, function_name, places, steps

SCRIPT = """\
# What bash completes after {name}; made of what its --help prints.
_{function}() {{
    local command={name} place=0 awaited=() word current=${{COMP_WORDS[COMP_CWORD]}}
    for word in "${{COMP_WORDS[@]:1:COMP_CWORD - 1}}"; do
        if ((${{#awaited[@]}})); then
            awaited=("${{awaited[@]:1}}")
            continue
        fi
        case $command:$word in
{walk}
        *:-*) ;;
        *) place=$((place + 1)) ;;
        esac
    done
    local kind=${{awaited[0]:-$place}}
    if [[ ${{#awaited[@]}} -eq 0 && $current == -* ]]; then
        kind=options
    fi
    COMPREPLY=()
    case $command:$kind in
{answers}
    *:files) compopt -o default ;;
    *:folders) compopt -o dirnames ;;
    esac
}}
complete -F _{function} {name}
"""
ANSWERS = {"files": "compopt -o default", "folders": "compopt -o dirnames"}


def walk(program: Command) -> Iterator[str]:
    """Says what a word before the cursor leads to: another command, or values of an option."""
    for step in steps(program):
        yield f"        {shlex.quote(f'{step.above.name}:{step.word}')}) command={shlex.quote(step.below.name)} ;;"
    for option in awaiting(program):
        yield f"        {shlex.quote(f'{option.command.name}:{option.name}')}) awaited=({' '.join(option.kinds)}) ;;"


def one_of(words: list[str]) -> str:
    return f'mapfile -t COMPREPLY < <(compgen -W {shlex.quote(" ".join(words))} -- "$current")'


def answers(command: Command) -> Iterator[str]:
    """Says what may come in a command: its own commands, its options, its arguments by their place."""
    found = {"options": one_of([name for row in command.options for name in row.names])}
    if command.rows:
        found["0"] = one_of([row.head for row in command.rows])
    found |= {str(place.number): ANSWERS[place.kind] for place in places(command)}
    for kind, answer in found.items():
        yield f"    {shlex.quote(f'{command.name}:{kind}')}) {answer} ;;"


def script(program: Command) -> str:
    """Makes the script for bash."""
    return SCRIPT.format(
        name=program.name,
        function=function_name(program.name),
        walk="\n".join(walk(program)),
        answers="\n".join(answer for command in program.whole() for answer in answers(command)))
