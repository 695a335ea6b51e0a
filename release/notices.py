#!/usr/bin/env python3
"""Prints the libraries whose code a program has and whose notice is missing, one a line.

Standard input is what `nm --format=just-symbols` prints of the program. The repository's own crates need none, and of its
own standard library the kit has none.
"""

import argparse
import re
import sys
from pathlib import Path

STANDARD = {"core", "io", "libc", "os", "std", "std_alloc", "std_collections", "std_heap", "std_io"}


def libraries(symbols: str) -> set[str]:
    """Finds the libraries that functions belong to, as `clap` in `clap::builder::..`."""
    return set(re.findall(r"^([a-z][a-z0-9_]*)::", symbols, re.MULTILINE))


def main() -> None:
    parser = argparse.ArgumentParser(description=__doc__, formatter_class=argparse.RawDescriptionHelpFormatter)
    parser.add_argument("notices", type=Path, help="the folder that has each library's notice under its name")
    notices = parser.parse_args().notices
    found = {name for name in libraries(sys.stdin.read()) if name != "afdx" and not name.startswith("afdx_")}
    kept = {file.name for file in notices.iterdir()}
    print("".join(f"{name}\n" for name in sorted(found - STANDARD - kept)), end="")


if __name__ == "__main__":
    main()
