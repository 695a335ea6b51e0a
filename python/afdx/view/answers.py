"""Asks the program of a run, or takes what it answered before."""
import os
import stat
from collections.abc import Iterator, Sequence
from contextlib import contextmanager
from dataclasses import dataclass
from pathlib import Path

from afdx import files
from afdx.failure import USAGE, Failure
from afdx.printed import CSV
from afdx.program import Program

PRINTED = ("size.csv", "measure.csv")
TRACED = ("arrivals.csv", "departures.csv")
COMPARED = ("compare.csv", "differences.csv")
DIFFERS = 1  # the status of `compare` that recordings differ, which is an answer too


@dataclass(frozen=True)
class ToCompare:
    """The folder of what was recorded at the output ports of a switch, and the options of `compare`, as `--name=value`
    but for `--rest`."""
    folder: str
    options: list[str]

    def offsets(self) -> dict[int, int]:
        """Returns what is added to the stamps of each port, in ns, of options that the program has taken."""
        given = [option.removeprefix("--offset=") for option in self.options if option.startswith("--offset=")]
        pairs = [pair.split("=") for text in given for pair in text.split(",")]
        return {int(port): int(offset) for port, offset in pairs}


@dataclass(frozen=True)
class Compared:
    """What `compare` printed of recordings, and its file."""
    recordings: ToCompare
    said: str
    rows: Path


@dataclass(frozen=True)
class Answers:
    """What `size` and `measure` printed, the folder with the two files of `trace`, and what `compare` found if there
    are recordings."""
    size: str
    measured: str
    folder: Path
    compared: Compared | None = None

    @property
    def arrivals(self) -> Path:
        return self.folder / TRACED[0]

    @property
    def departures(self) -> Path:
        return self.folder / TRACED[1]

    def files(self) -> list[Path]:
        compared = COMPARED if self.compared else ()
        return [self.folder / name for name in (*PRINTED, *TRACED, *compared)]


def need_files(command: str, paths: Sequence[str]) -> None:
    """Ends the command if one of the names is of a pipe or a device, which gives its bytes only once."""
    for path in paths:
        try:
            mode = os.stat(path).st_mode
        except OSError:  # the program says what is wrong with it
            continue
        if not stat.S_ISREG(mode) and not stat.S_ISDIR(mode):
            raise Failure(USAGE, f"{command}: {path} is not a file, and the program reads it more than once")


def compare(program: Program, table: str, folder: str, recordings: ToCompare, room: Path) -> Compared:
    """Has the program compare recordings, and put its file into the room."""
    answer = program.ask("compare", table, folder, recordings.folder, *recordings.options, "--rows", room, CSV)
    if answer.status not in (0, DIFFERS):
        raise Failure(answer.status, answer.line)
    return Compared(recordings, answer.said, room / COMPARED[1])


@contextmanager
def answered(program: Program, size: str, table: str, folder: str, unchecked: bool = False,
             recordings: ToCompare | None = None) -> Iterator[Answers]:
    """Runs the program over a table, of which it has said the size, a folder of captures, and recordings if there are
    some; the answers are there for the time of the context."""
    options = ["--unchecked"] if unchecked else []
    with files.temporary_folder(program.progress.command) as name:
        room = Path(name)
        compared = compare(program, table, folder, recordings, room) if recordings else None
        program.answer("trace", table, folder, room, *options)
        yield Answers(size, program.answer("measure", table, folder, *options, CSV), room, compared)


def kept(command: str, folder: Path, recordings: ToCompare | None) -> Answers:
    """Returns what a folder has of an earlier run: size.csv and measure.csv with what these commands printed, the files
    of `trace`, and of recordings compare.csv and the file of `compare`."""
    size, measured = (text_of(command, folder / name) for name in PRINTED)
    said, rows = (folder / name for name in COMPARED)
    return Answers(size, measured, folder,
                   Compared(recordings, text_of(command, said), rows) if recordings else None)


def text_of(command: str, path: Path) -> str:
    return files.get(command, path).decode("ascii", "replace")
