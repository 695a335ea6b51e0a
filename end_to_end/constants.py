#!/usr/bin/env python3
"""Compares the numbers on the pages with the constants of the code, by the list `docs/constants.txt`.

    constants.py

Prints each row whose page does not have its sentence, or has it with another number, and fails if there is one.
"""

import re
import sys
from dataclasses import dataclass
from pathlib import Path

TOP = Path(__file__).resolve().parents[1]
LIST = TOP / "docs/constants.txt"
UNITS = {"": 1, "KiB": 1024, "MiB": 1024 * 1024, "ms": 1_000_000}
WORDS = {"one": 1}


@dataclass(frozen=True)
class Row:
    """A sentence of a page, whose number is a constant of a source."""

    page: str
    sentence: str
    source: str
    constant: str


def rows() -> list[Row]:
    """Reads the list. A `|` of a page's table is written with a backslash before it."""
    found = []
    for line in LIST.read_text(encoding="utf-8").splitlines():
        if line and not line.startswith("#"):
            parts = [part.replace("\\|", "|").strip() for part in re.split(r"(?<!\\)\|", line)]
            found.append(Row(*parts))
    return found


def value_of(row: Row) -> int:
    """Reads the constant's number out of its source."""
    text = (TOP / row.source).read_text(encoding="utf-8")
    mark = re.search(rf"\bconst {row.constant}: \w+ = ([0-9_]+);", text)
    if mark is None:
        raise ValueError(f"{row.source} has no constant {row.constant} that is a number")
    return int(mark[1])


def number_of(shown: str) -> int:
    """Reads a number as a page has it."""
    return WORDS[shown] if shown in WORDS else int(shown.replace(",", ""))


def fault(row: Row) -> str | None:
    """Says what is wrong with a row, if anything is."""
    value = value_of(row)
    before, unit, after = re.split(r"\{(\w*)\}", row.sentence)
    text = (TOP / row.page).read_text(encoding="utf-8")
    there = re.findall(re.escape(before) + r"([0-9][0-9,]*|one)" + re.escape(after), text)
    others = [shown for shown in there if number_of(shown) * UNITS[unit] != value]
    if not there:
        return f"{row.page}: no sentence `{row.sentence}` with a number"
    if others:
        return f"{row.page}: `{row.sentence}` has {others[0]}, {row.constant} of {row.source} is {value}"
    return None


def main() -> None:
    try:
        faults = [found for row in rows() if (found := fault(row))]
    except (OSError, ValueError) as error:
        sys.exit(f"constants.py: {error}")
    sys.exit("\n".join(faults) or None)


if __name__ == "__main__":
    main()
