#!/usr/bin/env python3
"""Compares the number of the version elsewhere with that of the code, which `afdx --version` prints.

    versions.py

It has to be that of the Python package, and of CHANGELOG's newest release, if there is one. Fails where it is not.
"""

import re
import sys
from pathlib import Path

TOP = Path(__file__).resolve().parents[1]
CODE = ("crates/afdx/src/version.rt", r'const VERSION: &str = "(\S+)$')
PACKAGE = ("python/afdx/__init__.py", r'^__version__ = "(.*)"$')
CHANGELOG = ("CHANGELOG.md", r"^## \[(\d\S*)\] - \d{4}-\d{2}-\d{2}$")


def number_in(name: str, form: str) -> str | None:
    """Reads the number out of a file, or nothing if it has none in this form."""
    found = re.search(form, (TOP / name).read_text(encoding="utf-8"), re.MULTILINE)
    return found[1] if found else None


def main() -> None:
    code, package, released = number_in(*CODE), number_in(*PACKAGE), number_in(*CHANGELOG)
    faults = [] if code else [f"{CODE[0]} has no number"]
    if package != code:
        faults.append(f"{PACKAGE[0]} has {package}, the code {code}")
    if released not in (None, code):
        faults.append(f"the newest release of {CHANGELOG[0]} is {released}, the code has {code}")
    sys.exit("\n".join(faults) or None)


if __name__ == "__main__":
    main()
