"""Keeps what is so of a table or a network as facts: what is said of each of its places, as texts by name."""
from dataclasses import dataclass
from typing import TypeAlias

NONE = "-"  # of a value that is not there
# rows of the files, then what the program says of them; the order in which differences are printed
KINDS = ("network", "switch", "wire", "table", "port", "link", "load", "need", "way", "check")


@dataclass(frozen=True)
class Place:
    """A row of a file, or a line of the program."""
    switch: str  # empty where there is none
    kind: str
    name: str  # a number, or what stands for one

    def rank(self) -> tuple[int, str, int, str]:
        """Returns what places are sorted by; numbers among names by their values."""
        digits = self.name.split(" ", 1)[0]
        return KINDS.index(self.kind), self.switch, int(digits) if digits.isdecimal() else 0, self.name

    def __str__(self) -> str:
        return " ".join(filter(None, (self.switch, self.kind, self.name)))


Facts: TypeAlias = dict[Place, dict[str, str]]
