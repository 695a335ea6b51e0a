"""Runs the command afdx-diff."""
import argparse
from collections.abc import Sequence
from pathlib import Path

from afdx.diff import compare, sides
from afdx.failure import USAGE, Failure, say
from afdx.program import Program

COMMAND = "afdx-diff"


def options_of(arguments: Sequence[str]) -> argparse.Namespace:
    parser = argparse.ArgumentParser(
        prog=COMMAND, description="Says what differs between two tables or two network files: rows, what the program "
        "says of them, and what is newly refused.",
        epilog="Exit status 0: nothing differs; 1: something does; 2: usage; 3: a file is no table or network; "
               "5: a file or the program fails; 70: a defect of this command.")
    parser.add_argument("old", type=Path, metavar="OLD", help="a table or a network file")
    parser.add_argument("new", type=Path, metavar="NEW", help="another one of the same kind")
    parser.add_argument("--csv", action="store_true", help="comma-separated values, a line for each value that differs")
    return parser.parse_args(arguments)


def main(arguments: Sequence[str]) -> int:
    options = options_of(arguments)
    program = Program(COMMAND)
    old, new = sides.read(program, options.old), sides.read(program, options.new)
    if old.is_network() != new.is_network():
        raise Failure(USAGE, f"{COMMAND}: a table and a network file, {old.path} and {new.path}")
    found = compare.differences(old.facts, new.facts)
    say(COMMAND, compare.separated_text_of(found) if options.csv else compare.text_of(found))
    return 1 if found else 0
