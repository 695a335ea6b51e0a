#!/usr/bin/env python3
"""Compares man pages, as `man` shows them, with what the commands print for --help.

Each command that a help lists has its page; a page has all words of the
help, as often, but for the help's own headings.
"""
import argparse
import os
import re
import subprocess
import sys
from collections import Counter
from pathlib import Path

WIDE = {**os.environ, "COLUMNS": "200", "MANWIDTH": "200", "MANROFFOPT": "-rHY=0", "LC_ALL": "C.UTF-8"}
HEADINGS = {"Usage:", "usage:", "Commands:", "Arguments:", "Options:", "options:", "positional", "arguments:",
            "COMMAND", "Status:", "Example:"}


def said(*words: str | Path) -> str:
    """Returns what a program prints."""
    return subprocess.run(words, capture_output=True, text=True, check=True, env=WIDE).stdout


def missing(help_text: str, page: str) -> list[str]:
    """Lists the words of a help that its page lacks."""
    left = Counter(help_text.split()) - Counter(page.split())
    return [word for word in left.elements() if word not in HEADINGS]


def listed(help_text: str) -> list[str]:
    """Lists the commands that a help names, of `clap` or of argparse."""
    section = re.search(r"^(?:Commands:|positional arguments:\n  COMMAND)\n((?: .*\n)+)", help_text, re.M)
    names = re.findall(r"^ {2,4}([a-z]+) ", section[1], re.M) if section else []
    return [name for name in names if name != "help"]


def faults(bin_folder: Path, pages: Path, command: list[str]) -> list[str]:
    """Lists what is wrong with the page of a command, and with those of the commands below it."""
    help_text = said(bin_folder / command[0], *command[1:], "--help")
    page = pages / f"{'-'.join(command)}.1"
    found = [f"no {page.name}"]
    if page.exists():
        found = [f"{page.name} lacks {word}" for word in missing(help_text, said("man", "-l", page))]
    return found + [fault for name in listed(help_text) for fault in faults(bin_folder, pages, [*command, name])]


def main() -> None:
    parser = argparse.ArgumentParser(description=__doc__, formatter_class=argparse.RawDescriptionHelpFormatter)
    parser.add_argument("programs", type=Path, help="their folder")
    parser.add_argument("pages", type=Path, help="the folder of the man pages")
    given = parser.parse_args()
    bin_folder, pages = given.programs, given.pages
    programs = sorted(file.name for file in bin_folder.iterdir())
    found = [fault for name in programs for fault in faults(bin_folder, pages, [name])]
    sys.exit("\n".join(found) or None)


if __name__ == "__main__":
    main()
