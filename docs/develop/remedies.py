#!/usr/bin/env python3
"""Keeps what `afdx explain` prints as docs/use/MESSAGES.md has it.

    docs/develop/remedies.py           writes crates/afdx_remedies/src/entries.rt anew
    docs/develop/remedies.py --check   changes nothing; fails if the file is not what the page says

A code is the word of a line that stands for its fault: `A2` of an argument, `C6` of a table, `P3` of a capture, `L2` of a load,
`G3` or `J1` of a network, and `usage`, `get`, `put`, `read`, `write` and `memory`. Lines of one code have one entry: of each name
the first row of the page that has it, with its cause and its remedy, in lines of at most 80 columns.
"""

import argparse
import re
import sys
import textwrap
from pathlib import Path

TOP = Path(__file__).resolve().parents[2]
PAGE = Path("docs/use/MESSAGES.md")
SOURCE = Path("crates/afdx_remedies/src/entries.rt")
WIDTH = 80
ROW = re.compile(r"^\| `afdx: ([^`]+)` \| \d \| (.*) \| (.*) \|$", re.M)
CODED = re.compile(r"(?:argument|table|capture|load|network) (([A-Z]\d+) \w+)")
QUOTED = re.compile(r"`[^`]*`")
GAP = "\N{NO-BREAK SPACE}"
HEAD = """\
//! What MESSAGES says of each code. `docs/develop/remedies.py` writes this file; change docs/use/MESSAGES.md instead.

/// The codes in the order of the page, each with its entry.
pub(crate) const ENTRIES: [(&str, &str); {count}] = [
"""


def named(line: str) -> tuple[str, str]:
    """Finds the code of a line, and what its fault is called."""
    if mark := CODED.match(line):
        return mark[2], mark[1]
    words = line.split()
    return (words[1], f"device {words[1]}") if words[0] == "device" else (words[0], words[0])


def filled(text: str) -> str:
    """Breaks a text into lines, but no command that it quotes."""
    kept = QUOTED.sub(lambda quoted: quoted[0].replace(" ", GAP), text)
    return textwrap.fill(kept, WIDTH, break_long_words=False, break_on_hyphens=False).replace(GAP, " ")


def entries(page: str) -> dict[str, str]:
    """Reads the entry of each code."""
    found: dict[str, dict[str, str]] = {}
    for line, cause, remedy in ROW.findall(page):
        code, name = named(line)
        found.setdefault(code, {}).setdefault(name, f"{filled(f'{name}: {cause}')}\n{filled(f'Remedy: {remedy}')}\n")
    return {code: "".join(texts.values()) for code, texts in found.items()}


def literal(text: str) -> str:
    return '"' + text.replace("\\", "\\\\").replace('"', '\\"') + '"'


def source(page: str) -> str:
    """Writes the crate's file of a page."""
    found = entries(page)
    rows = [f"    (\n        {literal(code)},\n        {literal(text)},\n    ),\n" for code, text in found.items()]
    return HEAD.format(count=len(found)) + "".join(rows) + "];\n"


def main() -> None:
    parser = argparse.ArgumentParser(description=__doc__, formatter_class=argparse.RawDescriptionHelpFormatter)
    parser.add_argument("--check", action="store_true", help="changes nothing")
    given = parser.parse_args()
    wanted = source((TOP / PAGE).read_text(encoding="utf-8"))
    if not given.check:
        (TOP / SOURCE).write_text(wanted, encoding="utf-8")
    elif (TOP / SOURCE).read_text(encoding="utf-8") != wanted:
        sys.exit(f"{SOURCE} is not what {PAGE} says: run docs/develop/remedies.py")


if __name__ == "__main__":
    main()
