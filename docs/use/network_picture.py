#!/usr/bin/python3
"""Makes README's picture of the example network, docs/use/network.svg, from a run; with --check it is compared instead.

What is compared is what the picture shows: its words, and the points and lines to a point's width.
"""
import argparse
import re
import sys
import xml.etree.ElementTree
from pathlib import Path

sys.dont_write_bytecode = True
TOP = Path(__file__).resolve().parents[2]
sys.path.insert(0, str(TOP / "python"))

from afdx.pages.drawing import saved  # noqa: E402
from afdx.program import Program  # noqa: E402
from afdx.view import pictures  # noqa: E402
from afdx.view.making import run_of, sized  # noqa: E402

PICTURE = TOP / "docs" / "use" / "network.svg"
NETWORK = TOP / "examples" / "network"
WIDTH = 8.6  # inches


def drawn() -> str:
    program = Program("network_picture.py")
    run = run_of(program, sized(program, str(NETWORK / "table.toml")), str(NETWORK / "in"))
    return re.sub(r"[ \t]+$", "", saved(pictures.overview(run, WIDTH), False), flags=re.M)


def shown(svg: str) -> tuple[list[str], list[float]]:
    """Returns its words, and the numbers of its places and paths."""
    words: list[str] = []
    numbers: list[float] = []
    for element in xml.etree.ElementTree.fromstring(svg).iter():
        words += [element.text.strip()] if element.text and element.tag.endswith("}text") else []
        numbers += [float(number) for key in ("x", "y", "d")
                    for number in re.findall(r"-?\d+(?:\.\d+)?", element.get(key, ""))]
    return words, numbers


def same(one: str, other: str) -> bool:
    (words, numbers), (other_words, other_numbers) = shown(one), shown(other)
    near = all(abs(left - right) <= 1 for left, right in zip(numbers, other_numbers))
    return words == other_words and len(numbers) == len(other_numbers) and near


def main() -> None:
    parser = argparse.ArgumentParser(description=__doc__, formatter_class=argparse.RawDescriptionHelpFormatter)
    parser.add_argument("--check", action="store_true", help="compares it, and changes nothing")
    check = parser.parse_args().check
    svg = drawn()
    if not check:
        PICTURE.write_text(svg, encoding="utf-8")
    elif not same(svg, PICTURE.read_text(encoding="utf-8")):
        sys.exit(f"{PICTURE} shows another run: make it again by docs/use/network_picture.py")


if __name__ == "__main__":
    main()
