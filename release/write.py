#!/usr/bin/env python3
"""Writes the man pages and the completions of programs, of what each prints for --help.

The date of the pages is SOURCE_DATE_EPOCH.
"""

import argparse
import os
from datetime import datetime, timezone
from pathlib import Path

import bash
import fish
import zsh
from described import Command, described
from manual import manual


def write(file: Path, text: str) -> None:
    """Writes a new file; two of one name are a fault."""
    file.parent.mkdir(parents=True, exist_ok=True)
    with file.open("x", encoding="utf-8") as opened:
        opened.write(text)


def write_manual(share: Path, version: str, programs: list[Command]) -> None:
    date = datetime.fromtimestamp(int(os.environ["SOURCE_DATE_EPOCH"]), timezone.utc).strftime("%Y-%m-%d")
    commands = [command for program in programs for command in program.whole()]
    pages = [command.page for command in commands]
    for command in commands:
        write(share / "man/man1" / f"{command.page}.1", manual(command, pages, date, version))


def write_completions(share: Path, programs: list[Command]) -> None:
    for program in programs:
        write(share / "bash-completion/completions" / program.name, bash.script(program))
        write(share / "zsh/site-functions" / f"_{program.name}", zsh.script(program))
        write(share / "fish/vendor_completions.d" / f"{program.name}.fish", fish.script(program))


def main() -> None:
    parser = argparse.ArgumentParser(description=__doc__, formatter_class=argparse.RawDescriptionHelpFormatter)
    parser.add_argument("share", type=Path, help="its folders get them, named as below /usr/share")
    parser.add_argument("version")
    parser.add_argument("programs", type=Path, nargs="+")
    given = parser.parse_args()
    programs = [described(program) for program in given.programs]
    write_manual(given.share, given.version, programs)
    write_completions(given.share, programs)


if __name__ == "__main__":
    main()
