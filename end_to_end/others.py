#!/usr/bin/env python3
"""Compares two runs of a network: says which captures differ in the frames of links other than this one.

At each port of each switch the bytes of each other link's frames are to be the same, in the same order; their stamps may differ.
"""
import argparse
import sys
from pathlib import Path

import model


def frames(path: Path, number: int) -> dict[int, list[bytes]]:
    """Returns the frames of a capture by their links, without this link."""
    links: dict[int, list[bytes]] = {}
    for record in model.records_of(path.read_bytes(), 0):
        links.setdefault(int.from_bytes(record.data[4:6], "big"), []).append(record.data)
    links.pop(number, None)
    return links


def captures(folder: Path) -> list[Path]:
    """Returns the names of the captures in a folder and below it."""
    return sorted(path.relative_to(folder) for path in folder.rglob("*") if path.is_file())


def main() -> None:
    parser = argparse.ArgumentParser(description=__doc__, formatter_class=argparse.RawDescriptionHelpFormatter)
    parser.add_argument("out", type=Path, help="a folder that `afdx network run` put captures into")
    parser.add_argument("other", type=Path, help="that of another run")
    parser.add_argument("link", type=int, help="which may differ")
    given = parser.parse_args()
    names = captures(given.out)
    different = [] if names == captures(given.other) else ["the folders' files"]
    different += [str(name) for name in names if frames(given.out / name, given.link) != frames(given.other / name, given.link)]
    for name in different:
        print(f"{name} differs")
    sys.exit(bool(different) or not names)


if __name__ == "__main__":
    main()
