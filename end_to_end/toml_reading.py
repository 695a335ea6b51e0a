"""Says what bytes mean as TOML, by Python's own reader.

docs/use/FORMATS.md asks for TOML 1.1, and tomllib reads 1.0; what 1.0 reads, 1.1 reads as the same. If tomllib refuses
a text it is not known whether it is TOML if something in it may be of 1.1 alone (a line feed or a last comma in braces,
`\\e`, `\\xHH`, a time without seconds) or a date that Python does not have (the year 0, a leap second). Nor is it known
of what lies deep in one another: the page has limits of a text's arrays and keys, which its tree does not show.
"""
import math
import re
import tomllib
from collections.abc import Iterator
from typing import Any

MARK = b"\xef\xbb\xbf"  # of the order of bytes: one at the start is skipped
NEWER = re.compile(r",\s*\}|\\[ex]|\d\d:\d\d(?!:)|0000-\d\d-\d\d|:60")
NUMBERS = range(-2**63, 2**63)
DEPTH = 60

Tree = dict[str, Any]


class NoToml(Exception):
    """A text that is not TOML."""


class Unknown(Exception):
    """A text of which this reader cannot say whether it is TOML."""


def leaves_of(value: Any, depth: int = 0) -> Iterator[Any]:
    """Gives what is neither an array nor a table.

    Raises `Unknown` if something lies too deep.
    """
    if depth > DEPTH:
        raise Unknown
    if isinstance(value, dict | list):
        for inner in value.values() if isinstance(value, dict) else value:
            yield from leaves_of(inner, depth + 1)
    else:
        yield value


def float_of(text: str) -> float:
    """Reads a number with a fraction or an exponent.

    Raises `ValueError` if it is past those of 64 bits, which Python takes for infinite.
    """
    number = float(text)
    if math.isinf(number) and "inf" not in text:
        raise ValueError(text)
    return number


def may_be_newer(text: str) -> bool:
    """Says whether something in a text may be of TOML 1.1 alone, or a date that Python does not have."""
    begin = text.find("{")
    line_feed = text.find("\n", begin) if begin >= 0 else -1
    return 0 <= line_feed < text.rfind("}") or NEWER.search(text) is not None


def tree_of(data: bytes) -> Tree:
    """Reads a text.

    Raises `NoToml` if it is none, and `Unknown` if that is not known.
    """
    try:
        text = data.removeprefix(MARK).decode()
    except UnicodeDecodeError as fault:
        raise NoToml from fault
    try:
        tree = tomllib.loads(text, parse_float=float_of)
        numbers = [leaf for leaf in leaves_of(tree) if type(leaf) is int]
    except RecursionError as fault:
        raise Unknown from fault
    except ValueError as fault:
        raise (Unknown if may_be_newer(text) else NoToml) from fault
    if any(number not in NUMBERS for number in numbers):
        raise NoToml
    return tree
