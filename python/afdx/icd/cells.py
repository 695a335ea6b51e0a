"""Says what a cell may hold, and reads it."""
import json
import re
import unicodedata
from collections.abc import Callable
from dataclasses import dataclass
from typing import Generic, TypeVar

T = TypeVar("T")
SWITCH = re.compile(r"[A-Za-z0-9_-]{1,16}", re.ASCII)
NUMBER = re.compile(r"[0-9]{1,18}", re.ASCII)
SEPARATOR = re.compile(r"[|,]")  # between the names in a cell


class Unfit(Exception):
    """Says why a cell's text is not what its column holds."""


@dataclass(frozen=True)
class Unit:
    """What the values of a column are in, and which words of a heading say so, or that they are in something else."""
    what: str
    own: frozenset[str]
    others: frozenset[str]

    def other_in(self, heading: str) -> str:
        """Returns the first word of a heading that says something else, or nothing; one that says both is right.
        `kByte` is one word here, and `JitterMs` two."""
        said = self.own | self.others
        wholes: list[str] = re.findall(r"[^\W_]+", heading)
        parts = ([whole.casefold()] if whole.casefold() in said else words_of(whole) for whole in wholes)
        words = [word for part in parts for word in part]
        others = [word for word in words if word in self.others]
        return others[0] if others and self.own.isdisjoint(words) else ""


@dataclass(frozen=True)
class Column(Generic[T]):
    """A column: its key in the mapping, what reads its cells, what stands for an empty one, if one may be empty, how it
    may be called too, so that a heading that looks so is not passed over in silence, and what its values are in."""
    key: str
    reader: Callable[[str], T]
    default: str | None = None
    also: tuple[str, ...] = ()
    unit: Unit = Unit("", frozenset(), frozenset())


def number(text: str) -> int:
    if not NUMBER.fullmatch(text):
        raise Unfit("not a whole number")
    return int(text)


def whole(least: int, most: int) -> Callable[[str], int]:
    """Reads a number of this range."""
    def read(text: str) -> int:
        value = number(text)
        if not least <= value <= most:
            raise Unfit(f"not from {least} to {most}")
        return value
    return read


def link_number(text: str) -> int:
    """Reads the number of a virtual link. Lists of hexadecimal ones have some without letters: their zeros tell."""
    if text != "0" and text.startswith("0") and NUMBER.fullmatch(text):
        raise Unfit("begins with 0, as hexadecimal numbers may: it has to be decimal, without zeros in front")
    return whole(0, 65_535)(text)


def one_of(*values: int) -> Callable[[str], int]:
    """Reads one of these numbers."""
    def read(text: str) -> int:
        value = number(text)
        if value not in values:
            raise Unfit(f"not one of {', '.join(map(str, values))}")
        return value
    return read


def word(*words: str) -> Callable[[str], str]:
    """Reads one of these words, in either case, also by its first letter alone."""
    def read(text: str) -> str:
        for word in words:
            if text and text.lower() in (word, word[0]):
                return word
        raise Unfit(f"not {' or '.join(words)}")
    return read


def one_line(text: str) -> str:
    """Writes a text with line feeds and many spaces as one line, and an accent that follows its letter with it: lists
    of different systems have the same names then."""
    return unicodedata.normalize("NFC", " ".join(text.split()))


def quoted(text: str) -> str:
    """Returns a text in quotes, with escapes for what cannot be seen, as a space without width."""
    seen = (sign if sign.isprintable() else json.dumps(sign)[1:-1] for sign in json.dumps(text, ensure_ascii=False))
    return "".join(seen)


def words_of(text: str) -> list[str]:
    """Returns the words of a heading in small letters. All that is no letter or digit lies between words, and a word
    ends before a capital letter that follows a small one."""
    return re.findall(r"[^\W_]+", re.sub(r"(?<=[a-z])(?=[A-Z])", " ", text).casefold())


def printable(text: str) -> str:
    """Reads a name, so that it can stand in a comment."""
    line = one_line(text)
    if not line.isprintable():
        raise Unfit("has a character that cannot be printed")
    return line


def switch(text: str) -> str:
    """Reads a switch's name, which is that of its table's file too."""
    if not SWITCH.fullmatch(text):
        raise Unfit("not 1 to 16 of A-Z a-z 0-9 - _")
    if text.lower() == "network":
        raise Unfit("the table would have the network file's name")
    return text


def parts(text: str) -> list[str]:
    """Reads what lies between | or commas; an empty cell has no parts."""
    found = [printable(part) for part in SEPARATOR.split(text)] if text else []
    if "" in found:
        raise Unfit("an empty name between two separators")
    twice = [part for place, part in enumerate(found) if part in found[:place]]
    if twice:
        raise Unfit(f"has {twice[0]} twice")
    return found
