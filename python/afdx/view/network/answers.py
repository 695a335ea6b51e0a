"""Asks the program of a run of a network, and of each of its switches.

What came in over a wire is what left at its start, the wire's delay later: so once the network has run, there are the
captures of all ports of each switch, and of these `trace` and `measure` tell what became of each frame there.
"""
import os
from collections.abc import Iterator
from contextlib import contextmanager
from dataclasses import dataclass
from pathlib import Path

from afdx import files, toml
from afdx.failure import INPUT, Failure, failing
from afdx.printed import CSV
from afdx.program import Program
from afdx.recordings.columns import SECOND, Batch, are_stamps, at_any
from afdx.recordings.pcap import HEADER
from afdx.recordings.reading import Recording
from afdx.recordings.walking import RECORD
from afdx.view.answers import Answers
from afdx.view.network.layout import Layout, Port, layout_of
from afdx.view.provenance import shown, shown_by_name
from afdx.view.table import Table, table_of


@dataclass(frozen=True)
class SizedNetwork:
    """A network file that the program has read, with its tables, and what it printed of both."""
    name: str
    checked: bool
    said: str  # by `check`; nothing if the network is refused
    refused: list[str]  # the lines of the refusal
    premises: list[str]  # the lines of `check` that say on what its bounds rest; none if nothing is promised
    sizes: dict[str, str]  # what `size` printed, by switch
    layout: Layout
    tables: dict[str, Table]

    def shown_table(self, switch: str) -> str:
        """Returns what the page shows of the name of a switch's table, with the switch if another table is shown so."""
        names = {path: shown(str(path), str(Path(self.name).parent)) for path in self.layout.tables.values()}
        name = names[self.layout.tables[switch]]
        return f"{name} of {switch}" if list(names.values()).count(name) > 1 else name


@dataclass(frozen=True)
class NetworkAnswers:
    """What `run` printed of a network, and of each switch what its table says, `trace` and `measure`."""
    report: str
    switches: dict[str, Answers]


def sizes_of(said: str) -> dict[str, str]:
    """Returns the heading and the rows of each switch."""
    heading, *rows = said.splitlines(keepends=True)
    sizes: dict[str, str] = {}
    for row in rows:
        switch = row.partition(",")[0]
        sizes[switch] = sizes.get(switch, heading) + row
    return sizes


def premises_of(said: str) -> list[str]:
    """Returns the lines of `check` that name a premise; its comma-separated values have none."""
    return [line for line in said.splitlines() if line.startswith("premise ")]


def ask_size(program: Program, name: str, unchecked: bool) -> SizedNetwork:
    """Has the program check a network. One that is refused ends the command, unless it is to run unchecked."""
    if not unchecked:
        said, refused = program.answer("network", "check", name, CSV), []
        premises = premises_of(program.answer("network", "check", name))
    else:
        answer = program.ask("network", "check", name, CSV)
        said, refused, premises = answer.said, answer.line.splitlines() if answer.status else [], []
    sizes = sizes_of(program.answer("network", "size", name, CSV))
    layout = layout_of(toml.read(program.progress.command, Path(name)), Path(name).parent)
    tables = {switch: table_of(toml.read(program.progress.command, path)) for switch, path in layout.tables.items()}
    return SizedNetwork(name, not unchecked, said, refused, premises,
                        {switch: sizes.get(switch, "") for switch in tables}, layout, tables)


def capture(folder: Path | str, port: Port) -> str:
    """Names the capture of a port of a network."""
    return os.path.join(folder, port.switch, f"port-{port.number}.pcap")


def given(asked: SizedNetwork, folder: str) -> list[str]:
    """Names the captures of the ports of end systems."""
    wired = asked.layout.into()
    ports = [Port(switch, number) for switch, table in asked.tables.items() for number in table.ports]
    return [capture(folder, port) for port in ports if port not in wired]


def inputs_of(asked: SizedNetwork, folder: str) -> dict[str, str]:
    """Returns the names of all files that the page is made of, each with what the page shows of it."""
    tables = {str(path): asked.shown_table(switch) for switch, path in asked.layout.tables.items()}
    return shown_by_name([asked.name]) | tables | shown_by_name(given(asked, folder), folder)


def later(command: str, batch: Batch, nanoseconds: int) -> memoryview:
    """Returns the records of a batch that the program has written, one at least, so much later."""
    stamps, at = batch.stamp + nanoseconds, batch.start - RECORD
    if not are_stamps(stamps):
        raise Failure(INPUT, f"{command}: a frame goes over a wire in the last second that stamps have")
    text = memoryview(bytearray(batch.data))
    words = at_any(text, "<u4")
    words[at], words[at + 4] = stamps // SECOND, stamps % SECOND
    return text[int(at[0]):int(batch.start[-1] + batch.captured[-1])]


def delay(command: str, start: Path, end: Path, nanoseconds: int) -> None:
    """Writes a capture that the program has put once more, so much later."""
    try:
        with end.open("xb") as file, start.open("rb") as put:
            file.write(put.read(HEADER))
            file.writelines(later(command, batch, nanoseconds)
                            for batch in Recording(start, start.name).batches() if len(batch.stamp))
    except OSError as error:
        raise failing(command, f"cannot write {end.name}", error) from error


def silence(command: str, put: Path, end: Path) -> None:
    """Writes a capture of no frames, with the header of one that the program has put."""
    try:
        with end.open("xb") as file, put.open("rb") as begin:
            file.write(begin.read(HEADER))
    except OSError as error:
        raise failing(command, f"cannot write {end.name}", error) from error


def gather(command: str, asked: SizedNetwork, switch: str, folder: str, room: Path) -> Path:
    """Returns a folder with the captures of all ports of a switch, once the network has run into the room."""
    came, wired = room / "in" / switch, asked.layout.into()
    came.mkdir(parents=True)
    for number in asked.tables[switch].ports:
        end, port = came / f"port-{number}.pcap", Port(switch, number)
        wire = wired.get(port)
        if switch in asked.layout.down or (wire and wire.down):
            silence(command, Path(capture(room / "out", port)), end)
        elif wire is None:
            end.symlink_to(os.path.abspath(capture(folder, port)))
        elif wire.delay == 0:
            end.symlink_to(capture(room / "out", wire.start))
        else:
            delay(command, Path(capture(room / "out", wire.start)), end, wire.delay)
    return came


def ask_switch(program: Program, asked: SizedNetwork, switch: str, folder: str, room: Path) -> Answers:
    """Has the program say what became of the frames at a switch."""
    came = gather(program.progress.command, asked, switch, folder, room)
    traced, table = room / "traced" / switch, asked.layout.tables[switch]
    options = [] if asked.checked else ["--unchecked"]
    traced.mkdir(parents=True)
    program.answer("trace", table, came, traced, *options)
    return Answers(asked.sizes[switch], program.answer("measure", table, came, *options, CSV), traced)


@contextmanager
def answered(program: Program, asked: SizedNetwork, folder: str) -> Iterator[NetworkAnswers]:
    """Runs the program over a network and a folder of captures; the answers are there for the time of the context."""
    options = [] if asked.checked else ["--unchecked"]
    with files.temporary_folder(program.progress.command) as name:
        room = Path(name)
        for switch in asked.tables:
            (room / "out" / switch).mkdir(parents=True)
        report = program.answer("network", "run", asked.name, folder, room / "out", *options, CSV)
        yield NetworkAnswers(report, {switch: ask_switch(program, asked, switch, folder, room)
                                      for switch in asked.tables})
