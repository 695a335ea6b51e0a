#!/usr/bin/env python3
"""Finds docstrings of functions that begin with no verb.

    docstrings.py

Rust's API guidelines have the docstring of a function say first what it does: "Returns the stamp of the first record." Fails, with a
line for each, if one of Rust or of Python begins with another word than the verbs below, which those that are there begin with. Add a
verb that is new.
"""

import ast
import re
import sys
from collections.abc import Callable, Iterable, Iterator
from pathlib import Path

TOP = Path(__file__).resolve().parents[1]
VERBS = set(
    """
    Accepts Adds Admits Advances Appends Begins Brings Carries Checks Closes Compares Counts Cuts Decides Discards Divides Does
    Empties Ends Erases Fails Feeds Finds Finishes Forgets Gathers Gets Gives Goes Hands Has Joins Judges Keeps Learns Lends
    Lengthens Lets Lists Looks Makes Moves Notes Offers Opens Pairs Passes Plans Polices Proves Puts Reads Refuses Removes Returns
    Runs Says Selects Sends Serves Sets Shares Sorts Splits Takes Tells Turns Waits Writes
    """.split()
)
PYTHON_VERBS = VERBS | set(
    """
    Asks Breaks Collects Complains Copies Draws Enters Exchanges Expects Follows Hashes Holds Imports Kills Lays Marks
    Mutates Names Places Prints Raises Settles Shades Starts Stops Submits Sums Times Tries Warns Yields
    """.split()
)
FOLDERS = ("bench", "docs", "end_to_end", "examples", "python", "release")  # which have Python
FUNCTION = re.compile(r"\s*(pub(\([a-z]+\))? )?(const )?fn ")
DOCSTRING = re.compile(r"\s*///\s*(\w*)")

FirstWords = Iterator[tuple[int, str]]  # each after the number of its line


def rust_words(text: str) -> FirstWords:
    """Yields the first word of each docstring of a function of Rust."""
    first: tuple[int, str] | None = None
    for number, line in enumerate(text.splitlines(), 1):
        if docstring := DOCSTRING.match(line):
            first = first or (number, docstring[1])
        elif not line.lstrip().startswith("#["):
            if first and FUNCTION.match(line):
                yield first
            first = None


def python_words(text: str) -> FirstWords:
    """Yields the first word of each docstring of a function of Python."""
    for node in ast.walk(ast.parse(text)):
        if isinstance(node, ast.FunctionDef | ast.AsyncFunctionDef) and (docstring := ast.get_docstring(node)):
            yield node.body[0].lineno, re.split(r"\W", docstring, maxsplit=1)[0]


def faults(paths: Iterable[Path], first_words: Callable[[str], FirstWords], verbs: set[str]) -> Iterator[str]:
    """Yields a line for each docstring of a function in these files that begins with none of the verbs."""
    for path in sorted(paths):
        for number, word in sorted(first_words(path.read_text(encoding="utf-8"))):
            if word not in verbs:
                yield f"{path.relative_to(TOP)}:{number}: the docstring of a function begins with {word!r}"


def main() -> None:
    of_rust = faults(TOP.glob("crates/*/src/**/*.rt"), rust_words, VERBS)
    of_python = faults((path for folder in FOLDERS for path in TOP.glob(f"{folder}/**/*.py")), python_words, PYTHON_VERBS)
    sys.exit("\n".join([*of_rust, *of_python]) or None)


if __name__ == "__main__":
    main()
