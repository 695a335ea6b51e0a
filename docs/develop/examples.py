#!/usr/bin/env python3
"""Keeps the examples on the crates' front pages as the tests have them.

    docs/develop/examples.py           writes each example into the text at the top of its crate's `src/lib.rt`
    docs/develop/examples.py --check   changes nothing; fails if an example is not as its test has it, if a crate of the
                                       program has none, and if a crate has one that should have none

An example is what stands in tests between a line `// example of NAME` and a line `// end of example`; several pieces of
one crate follow one another, in the order of the files and lines. So it compiles, and runs in the gate.
"""
from __future__ import annotations

import argparse
import re
import sys
import textwrap
from pathlib import Path

from crates import PROGRAM, TOP, below, read_uses

LONGEST = 20  # lines
HEADING = "//! # Example"
PIECE = re.compile(r"^ *// example of (\w+)\n(.*?)^ *// end of example\n", re.M | re.S)
MARK = re.compile(r"^ *// (?:example of \w+|end of example)$", re.M)

# What runs the tests of crates that take whole commands: it is no crate of tests, and they run it.
HELPERS = ("afdx_fixtures",)

# Crates that have no example, and why.
WITHOUT = {
    PROGRAM: "a program, whose commands README and GUIDE show",
    "afdx_toml_split": "laws alone",
    "afdx_serial": "laws alone",
    "afdx_isolation": "laws alone",
    "afdx_compare_laws": "laws alone",
    "afdx_compare": "takes as many readers as the table has ports and recorded outputs, which a test would have to prove",
}

Pieces = dict[str, list[tuple[Path, str]]]


def sources_of_tests() -> list[Path]:
    """Lists the sources of the crates of tests, and of what they share."""
    folders = [path for path in (TOP / "crates").iterdir() if path.name.endswith("_tests") or path.name in HELPERS]
    return sorted(source for folder in folders for source in (folder / "src").rglob("*.rt"))


def read_pieces() -> tuple[Pieces, list[str]]:
    """Reads the marked pieces by the crate that they are of, and says which marks have no pair."""
    pieces: Pieces = {}
    wrong = []
    for source in sources_of_tests():
        text = source.read_text(encoding="utf-8")
        found = PIECE.findall(text)
        for name, lines in found:
            pieces.setdefault(name, []).append((source.relative_to(TOP), textwrap.dedent(lines)))
        if len(MARK.findall(text)) != 2 * len(found):
            wrong.append(f"{source.relative_to(TOP)}: the begin or the end of an example is missing")
    return pieces, wrong


def example(pieces: list[tuple[Path, str]]) -> str:
    """Writes the part of a front page that has an example."""
    files = list(dict.fromkeys(str(file) for file, _ in pieces))
    lines = "\n".join(lines for _, lines in pieces).splitlines()
    quoted = [HEADING, "//!", f"//! From {' and '.join(f'`{file}`' for file in files)}:", "//!", "//! ```"]
    quoted += [f"//! {line}".rstrip() for line in lines]
    return "\n".join([*quoted, "//! ```"]) + "\n"


def front_page(name: str) -> Path:
    return TOP / "crates" / name / "src/lib.rt"


def with_example(text: str, part: str) -> str:
    """Puts the part at the end of the text at a source's top, in the place of the one that is there."""
    lines = text.splitlines(keepends=True)
    end = next((place for place, line in enumerate(lines) if not line.startswith("//!")), len(lines))
    front = "".join(lines[:end]).partition(HEADING)[0].rstrip("\n")
    front = front.removesuffix("\n//!")
    return "".join([front, f"\n//!\n{part}" if part else "\n", *lines[end:]])


def faults(pieces: Pieces, program: list[str]) -> list[str]:
    """Says which crates lack an example, which have one that should not, and which examples are long."""
    wrong = [f"{name}: no example in any test, and docs/develop/examples.py does not say why"
             for name in program if name not in pieces and name not in WITHOUT]
    wrong += [f"{name}: an example of a crate that has none by docs/develop/examples.py: {WITHOUT[name]}"
              for name in pieces if name in WITHOUT]
    wrong += [f"{name}: an example of no crate of the program" for name in pieces if name not in program]
    for name, parts in pieces.items():
        count = sum(len(lines.splitlines()) for _, lines in parts)
        if count > LONGEST:
            wrong.append(f"{name}: an example of {count} lines, more than {LONGEST}")
    return wrong


def main() -> None:
    parser = argparse.ArgumentParser(description="Keeps the examples on the crates' front pages as tests have them.")
    parser.add_argument("--check", action="store_true", help="change nothing, and fail if something differs")
    check = parser.parse_args().check
    uses = read_uses()
    program = [name for name in uses if name in below(uses, PROGRAM) | {PROGRAM}]
    pieces, wrong = read_pieces()
    wrong += faults(pieces, program)
    for name in uses:
        page = front_page(name)
        if not page.exists():
            continue
        old = page.read_text(encoding="utf-8")
        part = example(pieces[name]) if name in pieces and name in program else ""
        new = with_example(old, part)
        if new != old and check:
            wrong.append(f"{page.relative_to(TOP)}: the example is not as its test has it: run docs/develop/examples.py")
        elif new != old:
            page.write_text(new, encoding="utf-8")
    sys.exit("\n".join(wrong) or None)


if __name__ == "__main__":
    main()
