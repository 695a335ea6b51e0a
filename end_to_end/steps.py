#!/usr/bin/env python3
"""Takes the commands out of a page, and what they print.

Each section's k-th block `sh` is written to FOLDER/NAME/k.sh, the block `text` behind it to k.txt, which is empty where
there is none. NAME is the section's heading, small, with _ for all but letters and digits.
"""
import argparse
import re
from collections.abc import Iterator
from pathlib import Path


def steps_of(page: str) -> Iterator[tuple[str, int, str, str]]:
    """Yields (name of the section, number in it, commands, what they print) of each step of a page."""
    for section in re.split(r"^## ", page, flags=re.M)[1:]:
        name = re.sub(r"[^a-z0-9]+", "_", section.split("\n", 1)[0].lower()).strip("_")
        blocks = re.findall(r"^```sh\n(.*?)^```\n(?:\n```text\n(.*?)^```\n)?", section, flags=re.M | re.S)
        for number, (commands, printed) in enumerate(blocks, 1):
            yield name, number, commands, printed


def main() -> None:
    parser = argparse.ArgumentParser(description=__doc__, formatter_class=argparse.RawDescriptionHelpFormatter)
    parser.add_argument("page", type=Path)
    parser.add_argument("folder", type=Path)
    given = parser.parse_args()
    for name, number, commands, printed in steps_of(given.page.read_text(encoding="utf-8")):
        section = given.folder / name
        section.mkdir(parents=True, exist_ok=True)
        (section / f"{number}.sh").write_text(commands, encoding="utf-8")
        (section / f"{number}.txt").write_text(printed, encoding="utf-8")


if __name__ == "__main__":
    main()
