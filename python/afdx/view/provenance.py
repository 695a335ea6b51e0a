"""Says where a page comes from, without a word of the host that it was made on."""
import hashlib
import os
import shlex
import shutil
import time
from collections.abc import Mapping, Sequence
from dataclasses import dataclass
from pathlib import Path

from afdx import program
from afdx.failure import USAGE, Failure, failing
from afdx.pages import words


@dataclass(frozen=True)
class Provenance:
    version: list[str]  # what the program says of itself; nothing if it was not run
    sums: list[tuple[str, str]]  # of each file its name and its SHA-256
    line: str  # the command line
    made: str  # the time in UTC
    comparing: str  # the command line by which recordings were compared; empty if none were

    @property
    def program(self) -> str:
        """Returns its number and the kit that it is proved with."""
        return " · ".join(self.version[:2]) or "not run"

    @property
    def proofs(self) -> str:
        """Returns whether this program was built with its proofs, and of which commit."""
        return self.version[2] if len(self.version) > 2 else "the program does not say whether it is proved"


def shown(name: str, folder: str | None = None) -> str:
    """Returns a name as the page shows it: of one that begins at the root only what stands below the folder, or, if it
    is not in the folder or none is given, the last part, since all above is the host's; what is not UTF-8 is
    replaced."""
    path = Path(name)
    if path.is_absolute():
        name = str(path.relative_to(folder)) if folder and path.is_relative_to(folder) else path.name
    return os.fsencode(name).decode("utf-8", "replace")


def shown_by_name(names: Sequence[str], folder: str | None = None) -> dict[str, str]:
    """Returns of each name what the page shows of it."""
    return {name: shown(name, folder) for name in names}


def sum_of(command: str, path: str) -> str:
    try:
        with open(path, "rb") as file:
            return hashlib.file_digest(file, "sha256").hexdigest()
    except OSError as error:
        raise failing(command, f"cannot read {path}", error) from error


def sums_of(command: str, names: Mapping[str, str]) -> list[tuple[str, str]]:
    return [(said, sum_of(command, name)) for name, said in names.items()]


def now(command: str) -> str:
    """Returns the time, or that of SOURCE_DATE_EPOCH, by which a page can be made again byte by byte."""
    fixed = os.environ.get("SOURCE_DATE_EPOCH")
    try:
        return words.utc((int(fixed) if fixed else int(time.time())) * words.SECOND).removesuffix(".000000000") + " UTC"
    except (ValueError, OverflowError, OSError) as error:
        raise Failure(USAGE, f"{command}: SOURCE_DATE_EPOCH is not a time: {fixed}") from error


def line_of(words: Sequence[str]) -> str:
    return shlex.join(map(shown, words))


@dataclass(frozen=True)
class Comparison:
    """The words of the command by which recordings were compared, and the captures that were recorded."""
    words: Sequence[str] = ()
    recorded: Sequence[str] = ()


def provenance_of(command: str, asked: program.Program | None, arguments: Sequence[str], names: Mapping[str, str],
                  comparison: Comparison = Comparison()) -> Provenance:
    """Returns where a page of these arguments comes from, which was made of this comparison and of these files, with
    what the page shows of their names."""
    version, sums = [], sums_of(command, names)
    sums += [(f"{name}, recorded", found) for name, found in sums_of(command, shown_by_name(comparison.recorded))]
    if asked:
        version = asked.answer("--version").splitlines()
        sums.append(("afdx", sum_of(command, shutil.which(asked.file) or asked.file)))
    return Provenance(version, sums, line_of([command, *arguments]), now(command), line_of(comparison.words))
