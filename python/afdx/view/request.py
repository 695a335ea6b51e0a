"""Keeps what the command line asks for."""
from collections.abc import Sequence
from dataclasses import dataclass
from pathlib import Path

from afdx.view.answers import ToCompare
from afdx.view.provenance import shown


def captures_of(folder: str, ports: Sequence[int]) -> list[str]:
    return [f"{folder}/port-{port}.pcap" for port in ports]


@dataclass(frozen=True)
class Request:
    """What a page is to be of, and where it goes, by the names that were given."""
    table: str  # or the file of a network
    folder: str
    out: str
    unchecked: bool
    answers: str  # the folder of those of an earlier run; empty if the program is to be run
    recordings: ToCompare | None

    @property
    def page(self) -> Path:
        return Path(self.out)

    @property
    def rows(self) -> Path:
        """Returns the name of the file of all differences."""
        return self.page.with_name(f"{self.page.stem}-differences.csv")

    @property
    def title(self) -> str:
        return f"{shown(self.table)} over {shown(self.folder)}"

    def words(self) -> list[str]:
        """Returns the arguments in one order, whatever the order in which they were given."""
        unchecked = ["--unchecked"] if self.unchecked else []
        kept = ["--answers", self.answers] if self.answers else []
        asked = self.recordings
        recorded = ["--recorded", asked.folder, *asked.options] if asked else []
        return [self.table, self.folder, self.out, *unchecked, *kept, *recorded]

    def comparing(self) -> list[str]:
        """Returns the words of the comparison."""
        asked = self.recordings
        return ["afdx", "compare", self.table, self.folder, asked.folder, *asked.options] if asked else []

    def inputs(self, ports: Sequence[int]) -> list[str]:
        """Names what the page of a table with these ports is made of, but for recordings."""
        return [self.table, *captures_of(self.folder, ports)]

    def recorded(self, ports: Sequence[int]) -> list[str]:
        """Names what was recorded at these output ports."""
        return captures_of(self.recordings.folder, ports) if self.recordings else []
