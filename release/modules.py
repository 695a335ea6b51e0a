#!/usr/bin/env python3
"""Prints the modules that Python code imports from elsewhere, one a line.

They are those that neither come with Python nor lie in FOLDER.
"""

import argparse
import ast
import sys
from collections.abc import Iterator
from pathlib import Path


def imported(file: Path) -> Iterator[str]:
    """Goes through the packages whose modules a file imports, wherever in it."""
    for node in ast.walk(ast.parse(file.read_text(encoding="utf-8"))):
        if isinstance(node, ast.Import):
            yield from (alias.name.split(".")[0] for alias in node.names)
        elif isinstance(node, ast.ImportFrom) and node.module and not node.level:
            yield node.module.split(".")[0]


def main() -> None:
    parser = argparse.ArgumentParser(description=__doc__, formatter_class=argparse.RawDescriptionHelpFormatter)
    parser.add_argument("folder", type=Path, help="has the code")
    folder = parser.parse_args().folder
    own = {file.stem for file in folder.iterdir()} | sys.stdlib_module_names
    found = {name for file in folder.rglob("*.py") for name in imported(file)}
    print("".join(f"{name}\n" for name in sorted(found - own)), end="")


if __name__ == "__main__":
    main()
